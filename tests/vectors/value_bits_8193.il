attribute \x 2048'
module \m
parameter \p 2048'
cell \t \c
parameter \q 2048'1
parameter \r 2048'
parameter \o 1'x
end
end
