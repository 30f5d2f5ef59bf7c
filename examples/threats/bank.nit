buffer 48 38
fill 0 0 48 38 D8D8D0
fill 0 0 48 16 304878
fill 6 22 36 10 FFFFFF
view
title 1 =log in
place 1 46 18 48 38
phase
phase
phase
phase
phase
