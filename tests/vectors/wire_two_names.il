module \m
wire \a \b
end
