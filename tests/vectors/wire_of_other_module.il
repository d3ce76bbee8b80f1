module \m
wire \a
end
module \n
connect \a \a
end
