shop.1;
