switch a { _ if b => 1 }
