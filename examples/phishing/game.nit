buffer 232 191
fill 0 0 232 135 204020
fill 8 8 216 6 A04040
fill 8 18 216 6 C08040
fill 8 28 216 6 A0A040
fill 144 44 4 4 FFFFFF
fill 96 124 40 4 C0C0C0
fill 0 135 96 56 D8D8D0
fill 0 135 96 12 304878
fill 5 137 5 3 F0C040
fill 6 138 3 2 304878
fill 4 140 7 5 F0C040
fill 8 153 80 10 FFFFFF
check 12 156 24 4 303030 FFFFFF
fill 8 167 80 10 FFFFFF
fill 56 181 32 7 304878
view
title 1 =board
place 1 4 11 232 135
view
title 2 =log in
offset 2 0 -135
place 2 128 64 96 56
phase
phase
take
take
take
take
take
take
phase
phase
