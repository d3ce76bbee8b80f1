module \m
  wire input 1 input 1 \a
end
