let a = `one
two
