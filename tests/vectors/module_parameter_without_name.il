module \m
parameter
end
