buffer 24 24
fill 0 0 24 24 600000
view
place 1 36 4 24 24
phase
phase
fill 4 4 16 16 FFFF00
refresh 0 0 24 24
phase
