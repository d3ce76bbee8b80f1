module \m
cell \t \c
parameter signed \p
end
end
