let a = { 1 };
