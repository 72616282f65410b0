let a = 1;
    let 5 = x;
