buffer 200 230
fill 0 0 200 230 101C14
fill 0 0 200 10 305040
check 8 18 96 4 60E080 101C14
check 8 26 132 4 60E080 101C14
check 8 34 60 4 60E080 101C14
check 8 42 116 4 60E080 101C14
check 8 50 84 4 60E080 101C14
fill 8 58 6 4 60E080
fill 0 120 200 110 181018
fill 0 120 200 10 503050
fill 8 140 150 5 E0A040
fill 8 150 110 5 E0A040
fill 8 160 170 5 E0A040
fill 8 170 70 5 D04040
view
view
place 1 20 24 200 110
place 2 60 100 200 110
offset 2 0 -120
title 1 =shell
title 2 =build
refresh 0 0 200 230
phase
phase
take
take
take
take
take
take
take
take
take
take
