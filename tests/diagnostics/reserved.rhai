let goto = 1;
