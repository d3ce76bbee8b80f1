module \m
wire \a
wire \a width 2
end
