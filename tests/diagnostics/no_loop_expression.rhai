let a = loop { break 1; };
