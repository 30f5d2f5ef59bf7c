buffer 24 24
fill 0 0 24 24 202060
view
place 1 4 4 24 24
phase
phase
check 4 4 16 16 FFFFFF 202060
refresh 0 0 24 24
phase
