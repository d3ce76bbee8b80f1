module \m
cell \t \c
end
