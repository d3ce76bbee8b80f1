module \m
  wire inout -1 \a
end
