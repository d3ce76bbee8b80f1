module \m
wire \a
sync always
end
