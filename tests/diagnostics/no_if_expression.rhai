let a = if b { c };
