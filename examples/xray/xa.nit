buffer 12 7
fill 0 0 12 7 FF0000
view
place 1 0 0 12 7
phase
phase
