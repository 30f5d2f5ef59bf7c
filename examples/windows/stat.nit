buffer 480 16
fill 0 0 480 16 404848
fill 400 4 72 8 C0C8C8
fill 60 4 8 8 60C060
fill 74 4 8 8 C0A040
view
place 1 0 284 480 16
refresh 0 0 480 16
phase
phase
