module \m
cell \t \c
parameter \p 1
parameter signed \p 1
end
end
