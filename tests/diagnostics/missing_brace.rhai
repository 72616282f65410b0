fn area(a, b) {
    if a > b {
        a * b
    }
