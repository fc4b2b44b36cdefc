test 1
