#!/usr/bin/env rhai-run
let a = 1;
let let = 2;
