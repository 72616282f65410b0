fn f() {}
fn g() {}
