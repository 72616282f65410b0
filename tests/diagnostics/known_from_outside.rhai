pric * tax::rate
