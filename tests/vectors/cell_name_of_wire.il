module \m
wire \a
cell \t \a
end
end
