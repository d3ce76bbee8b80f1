module \m
wire \a
memory width 0 \a
end
