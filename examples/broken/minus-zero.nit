view
place 1 -0 0 4 2
