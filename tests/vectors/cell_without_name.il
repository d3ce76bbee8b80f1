module \m
cell \t
end
