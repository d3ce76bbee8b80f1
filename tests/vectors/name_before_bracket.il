module \m
wire width 4 \a
connect \a[3] 1'0
end
