module \m
wire \a
attribute \x 1

# c
connect \a \a
end
