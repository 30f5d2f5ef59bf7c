phase
buffer 4 7
fill 0 0 4 7 0000FF
view
place 1 0 0 3 7
phase
