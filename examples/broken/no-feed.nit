view
view
vie