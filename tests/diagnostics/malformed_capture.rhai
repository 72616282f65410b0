a.double!(1);
