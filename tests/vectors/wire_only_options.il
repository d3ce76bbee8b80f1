module \m
wire width 2
end
