module \m
wire \a
assign \a \a
end
