module \m
attribute \x 1

attribute \x 1
wire \a
end
