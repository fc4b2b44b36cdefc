capture 1
