module \m
wire
end
