attribute 1
