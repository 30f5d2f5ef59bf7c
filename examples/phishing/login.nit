buffer 96 56
fill 0 0 96 56 D8D8D0
fill 0 0 96 12 304878
fill 5 2 5 3 F0C040
fill 6 3 3 2 304878
fill 4 5 7 5 F0C040
fill 8 18 80 10 FFFFFF
check 12 21 24 4 303030 FFFFFF
fill 8 32 80 10 FFFFFF
fill 56 46 32 7 304878
view
place 1 16 64 96 56
phase
phase
phase
phase
take
take
take
take
take
take
take
take
take
take
fill 12 36 2 2 303030
fill 16 36 2 2 303030
fill 20 36 2 2 303030
refresh 0 0 96 56
