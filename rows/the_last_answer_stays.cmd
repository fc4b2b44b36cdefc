left
