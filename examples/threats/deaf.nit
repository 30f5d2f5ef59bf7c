buffer 36 36
fill 0 0 36 36 C8E0C8
fill 0 0 36 8 307030
view
place 1 52 12 36 36
phase
phase
phase
phase
phase
