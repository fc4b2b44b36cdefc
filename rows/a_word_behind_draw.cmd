draw 1
