module \m
  wire input 1 inout 2 \a
end
