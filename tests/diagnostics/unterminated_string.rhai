let name = "Tom;
let age = 7;
