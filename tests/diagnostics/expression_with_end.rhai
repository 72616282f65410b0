a + b;
