module \m
attribute \x 1
