phase
buffer 4 2
fill 0 0 4 2 0000FF
view
place 1 0 0 4 2
phase
phase
place 1 4 2 4 2
