devices 1
