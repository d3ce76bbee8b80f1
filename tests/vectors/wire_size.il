module \m
wire size 2 \a
end
