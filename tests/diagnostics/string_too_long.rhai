let name = "Thomas";
