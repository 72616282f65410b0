let a = 5 €;
