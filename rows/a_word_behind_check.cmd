check 1
