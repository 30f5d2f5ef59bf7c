buffer 4 2
fill 0 0 4 2 FF0000
view
place 1 0 0 4 2
title 1 =a:b
title 1 =a-b
