const LIMIT = 1;
LIMIT = 2;
