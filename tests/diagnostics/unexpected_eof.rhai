let total = 1 +
