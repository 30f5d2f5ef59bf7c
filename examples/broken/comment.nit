view
# a comment
