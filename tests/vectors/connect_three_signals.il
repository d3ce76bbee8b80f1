module \m
wire \a
connect \a \a \a
end
