fn area(side, side) {}
