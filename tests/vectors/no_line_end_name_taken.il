module \m
wire \a
wire \a