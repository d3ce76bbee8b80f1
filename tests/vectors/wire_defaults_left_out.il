module \m
wire width 1 \a
wire offset 0 \b
wire offset 0 width 1 \c
end
