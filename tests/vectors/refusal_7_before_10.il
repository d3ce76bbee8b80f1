module \m
connect 1'0 [1] 1'0 [2147483648]
end
