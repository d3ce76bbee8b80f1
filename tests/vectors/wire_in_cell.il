module \m
cell \t \c
wire \a
end
end
