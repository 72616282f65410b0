fn area {}
