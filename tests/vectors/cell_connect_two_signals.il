module \m
wire \a
cell \t \c
connect \A \a \a
end
end
