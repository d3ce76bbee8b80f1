attribute \x 2048'
module \m
parameter \p 2048'
parameter \n 7
parameter \s "abc"
cell \t \c
parameter \q 2048'1
parameter \r 2047'
parameter \o 1'x
end
connect 8'0 8'0
end
