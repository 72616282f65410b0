fn area(a) {}
fn area(b) {}
