module \m
wire signed output 2 upto offset 5 width 3 \a
wire inout 1 upto \b
wire signed width 0 \c
wire upto width 2 \d
end
