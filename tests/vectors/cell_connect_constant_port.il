module \m
cell \t \c
connect 1'0 1'0
end
end
