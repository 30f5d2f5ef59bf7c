buffer	4 2
