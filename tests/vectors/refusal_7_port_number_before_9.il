module \m
wire input 1 \a
wire input 1 \a
end
