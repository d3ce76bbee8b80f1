module \m
wire \a
process \a
end
end
