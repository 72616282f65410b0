switch a { _ => 1, 2 => 3 }
