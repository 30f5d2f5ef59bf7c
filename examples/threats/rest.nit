buffer 36 36
fill 0 0 36 36 E0C8C8
fill 0 0 36 8 903030
view
place 1 52 12 36 36
phase
phase
phase
phase
phase
take
take
take
take
take
take
