let total = 1;
let i = 2;
totl + i
