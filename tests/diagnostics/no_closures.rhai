let a = || 1;
