module \m
  wire offset 2147483647 width 2 \a
end
