view
view
buffer 8 8
upgrade 769
upgrade 768
upgrade 1
buffer 8 8
view
view
view
phase
phase
phase
phase
phase
