let a = [31m;
