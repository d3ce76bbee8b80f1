module \m
  wire width 2 width 2 \a
end
