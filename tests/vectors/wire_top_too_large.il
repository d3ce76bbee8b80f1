module \m
  wire width 2048 offset 2147481601 \a
end
