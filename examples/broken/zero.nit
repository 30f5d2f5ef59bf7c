buffer 04 2
