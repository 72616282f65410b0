let a = switch b { 1 => c };
