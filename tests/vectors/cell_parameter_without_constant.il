module \m
cell \t \c
parameter \p
end
end
