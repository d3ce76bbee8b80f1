module \m
cell \t \c
module \n
end
end
