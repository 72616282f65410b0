let path = "C:\new\quiz";
