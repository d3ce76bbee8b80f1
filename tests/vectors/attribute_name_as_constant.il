attribute \x \y
