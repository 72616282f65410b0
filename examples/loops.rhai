for (x, i) in [3, 4] {
    if x > i { break x } else if i { continue }
}
let y = do { f() } until y ?? loop { break 1 };