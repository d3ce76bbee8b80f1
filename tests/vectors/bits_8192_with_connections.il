module \m
wire width 2048 \a
wire \y
connect \a \a
cell \t \c
connect \A \a
end
process \p
switch \a [2046:0]
end
sync low \y
end
end
