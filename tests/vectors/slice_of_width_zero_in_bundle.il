module \m
wire width 0 \e
wire \y
cell \t \c
connect \A { \y \e [0] }
end
end
