/// Counts.
let a = 1;
