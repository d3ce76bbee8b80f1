module \m
cell \t \c
memory \a
end
end
