switch x {
    "a" | 1 if y => x = 2,
    1 | 0..10 => { let z = x; z }
    _ => a ?? switch b {}
}