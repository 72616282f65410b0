for (item, item) in 0..3 {}
