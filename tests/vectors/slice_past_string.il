module \m
wire width 4 \a
wire width 2 \b
wire \y
cell \t \c
connect \A "A" [8]
end
end
