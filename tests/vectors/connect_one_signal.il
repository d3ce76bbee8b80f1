module \m
wire \a
connect \a
end
