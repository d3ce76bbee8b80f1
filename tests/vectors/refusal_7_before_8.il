module \m
connect \none 2147483648
end
