module \m
cell \t \c
parameter \p signed 1
end
end
