attribute \x 1
attribute \x 2147483648
module \m
end
