buffer 60 36
fill 0 0 60 36 D8D8D0
fill 0 0 60 16 304878
fill 8 20 44 10 FFFFFF
view
place 1 0 0 60 36
phase
phase
phase
destroy 1
phase
phase
