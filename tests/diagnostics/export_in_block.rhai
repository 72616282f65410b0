{ export a; }
