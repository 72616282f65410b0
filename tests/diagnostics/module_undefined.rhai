import "lib/geometry" as geometry;
geomtry::area(1, 2)
