buffer 96 57
fill 0 0 96 57 000020
phase
phase
phase
view
place 1 0 7 96 57
phase
phase
