View
