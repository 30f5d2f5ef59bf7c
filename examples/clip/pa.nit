buffer 4 4
fill 0 0 4 4 FF0000
view
place 1 0 0 4 4
phase
phase
