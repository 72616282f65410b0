fn area(a) a * a
