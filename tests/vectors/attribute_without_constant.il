attribute \x
