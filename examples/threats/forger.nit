buffer 61 37
fill 1 1 60 36 D8D8D0
fill 1 1 60 16 304878
fill 9 21 44 10 FFFFFF
fill 1 1 60 1 FFFFFF
fill 1 1 1 36 FFFFFF
fill 1 1 21 7 000000
fill 2 2 1 5 FFFFFF
fill 3 6 2 1 FFFFFF
fill 6 3 1 3 FFFFFF
fill 8 3 1 3 FFFFFF
fill 7 2 1 1 FFFFFF
fill 7 6 1 1 FFFFFF
fill 10 3 1 3 FFFFFF
fill 12 4 1 3 FFFFFF
fill 11 2 2 1 FFFFFF
fill 11 6 1 1 FFFFFF
fill 15 2 1 5 FFFFFF
fill 14 2 3 1 FFFFFF
fill 14 6 3 1 FFFFFF
fill 18 2 1 5 FFFFFF
fill 20 3 1 4 FFFFFF
fill 19 2 1 1 FFFFFF
view
title 1 =wide.title.x
phase
phase
phase
place 1 -1 -1 61 37
phase
phase
