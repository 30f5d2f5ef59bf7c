buffer 1024 40
fill 0 0 1024 40 404040
view
view
place 1 0 728 512 40
place 2 512 728 512 40
title 1 =left
title 2 =right
refresh 0 0 1024 40
phase
