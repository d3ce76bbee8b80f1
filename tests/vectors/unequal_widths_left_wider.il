module \m
wire width 2 \a
connect \a 1'0
end
