module \m
wire \a
case 1'0
end
