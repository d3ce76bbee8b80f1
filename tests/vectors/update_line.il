module \m
wire \a
update \a \a
end
