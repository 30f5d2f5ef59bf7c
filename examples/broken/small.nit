view
fill 0 0 4 2 ff0000
