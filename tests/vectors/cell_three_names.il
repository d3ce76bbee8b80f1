module \m
cell \t \u \v
end
end
