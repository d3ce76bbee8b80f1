module \m
wire upto 1 \a
end
