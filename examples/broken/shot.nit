view
shot
