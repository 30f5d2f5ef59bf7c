buffer 96 64
fill 0 0 96 64 FFFFFF
view
place 1 0 0 96 64
refresh 0 0 96 64
phase
