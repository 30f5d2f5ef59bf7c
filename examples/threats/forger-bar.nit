buffer 61 37
fill 1 1 60 36 D8D8D0
fill 1 1 60 16 304878
fill 9 21 44 10 FFFFFF
fill 1 1 60 1 FFFFFF
fill 1 1 1 36 FFFFFF
fill 1 8 21 7 000000
fill 2 9 1 5 FFFFFF
fill 3 13 2 1 FFFFFF
fill 6 10 1 3 FFFFFF
fill 8 10 1 3 FFFFFF
fill 7 9 1 1 FFFFFF
fill 7 13 1 1 FFFFFF
fill 10 10 1 3 FFFFFF
fill 12 11 1 3 FFFFFF
fill 11 9 2 1 FFFFFF
fill 11 13 1 1 FFFFFF
fill 15 9 1 5 FFFFFF
fill 14 9 3 1 FFFFFF
fill 14 13 3 1 FFFFFF
fill 18 9 1 5 FFFFFF
fill 20 10 1 4 FFFFFF
fill 19 9 1 1 FFFFFF
view
title 1 =wide.title.x
phase
phase
phase
place 1 -1 -1 61 37
phase
phase
