module \m
wire width 2'10 \a
end
