module \m
  wire width 2049 \a
end
