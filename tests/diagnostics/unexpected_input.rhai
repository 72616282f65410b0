let a = 1 + );
