module \m
wire \a
wire width 2 \b
connect \a \b [0]
end
module \n
wire width 2 \b
wire \a
connect \a \b [1]
end
