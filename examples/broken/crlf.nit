view
