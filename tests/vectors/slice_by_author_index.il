module \m
wire width 4 offset 8 \o
cell \t \c
connect \A \o [8]
end
end
