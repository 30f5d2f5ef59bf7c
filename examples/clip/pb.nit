buffer 4 4
fill 0 0 4 4 0000FF
view
place 1 4 0 4 4
phase
phase
