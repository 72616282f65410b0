let a = ~1;
