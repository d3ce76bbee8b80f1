module \m
wire real \a
end
