module \m
wire width 2048 \a
process \p
assign \a \a
switch \a
case \a
end
end
end
