module \m
parameter \p 2147483648 1'2
end
