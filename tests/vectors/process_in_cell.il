module \m
cell \t \c
process \p
end
end
