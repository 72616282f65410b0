while a { b }
