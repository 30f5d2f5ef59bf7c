buffer 80 8
fill 0 0 80 8 504060
view
place 1 8 52 80 8
phase
phase
phase
take
refresh 0 0 80 8
view
place 2 8 52 80 8
offset 2 -3 0
destroy 2
phase
phase
take
take
