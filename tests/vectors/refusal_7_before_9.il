module \m
wire \a
wire width 2049 \a
end
