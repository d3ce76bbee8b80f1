module \m
cell \t \c
autoidx 1
end
end
