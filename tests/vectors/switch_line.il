module \m
wire \a
switch \a
end
