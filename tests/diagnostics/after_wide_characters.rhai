let a = "日本é" ~ 1;
