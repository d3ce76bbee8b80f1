module \m
cell \t \c
cell \t \a
end
end
