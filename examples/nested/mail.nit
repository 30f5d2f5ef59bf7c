buffer 72 60
fill 0 0 72 60 F4F4FF
fill 0 0 72 14 3050A0
fill 6 22 44 3 404060
fill 6 28 52 3 8080A0
fill 6 36 36 3 404060
fill 6 42 56 3 8080A0
fill 6 50 40 3 404060
view
place 1 8 12 72 60
phase
