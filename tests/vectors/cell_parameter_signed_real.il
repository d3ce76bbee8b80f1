module \m
cell \t \c
parameter signed real \p 1
end
end
