module \m
wire \a
cell \t \c
connect \A [0] \a
end
end
