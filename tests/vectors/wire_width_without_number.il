module \m
wire width \a
end
