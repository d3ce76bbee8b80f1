module \m
wire input \a
end
