buffer 36 36
fill 0 0 36 36 C8D0E0
fill 0 0 36 8 305090
fill 5 14 26 3 404860
fill 5 20 20 3 404860
view
place 1 8 12 36 36
refresh 0 0 36 36
phase
phase
phase
phase
phase
take
take
take
take
take
take
