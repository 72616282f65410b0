while { true } { }
