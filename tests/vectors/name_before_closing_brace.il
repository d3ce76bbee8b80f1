module \m
wire \a
connect { \a} 1'0
end
