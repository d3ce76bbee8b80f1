attribute \x 1 2
