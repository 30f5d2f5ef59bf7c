view

take
