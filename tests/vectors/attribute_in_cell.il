module \m
cell \t \c
attribute \x 1
end
end
