view
title 1 =inner desk
place 1 16 26 160 100
phase
phase
