if a { break; }
