let a = (1 + f(2)
