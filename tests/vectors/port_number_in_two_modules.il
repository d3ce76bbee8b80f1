module \m
  wire input 1 \a
  wire output 2 \b
end
module \n
  wire input 1 \a
end
