let a = ‮1;
