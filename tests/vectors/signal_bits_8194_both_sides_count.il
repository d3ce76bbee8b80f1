module \m
  wire width 2048 \a
  connect \a \a
  connect \a \a
  connect 1'0 1'0
end
