module \m
  wire \a
  cell \t \c
  end
  connect \a 1'0
  connect 1'0 \a
end
