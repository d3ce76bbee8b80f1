module \m
  wire width 4294967297 \a
end
