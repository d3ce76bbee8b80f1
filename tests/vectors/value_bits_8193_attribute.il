module \m
parameter \p 2048'
parameter \q 2048'
parameter \r 2048'
parameter \s 2047'
attribute \x 2'
wire \a
end
