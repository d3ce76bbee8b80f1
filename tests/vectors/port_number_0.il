module \m
  wire input 0 \a
end
