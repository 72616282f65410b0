fn (a) {}
