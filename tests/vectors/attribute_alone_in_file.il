attribute \x 1
