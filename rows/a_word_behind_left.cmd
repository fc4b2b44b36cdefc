left 1
