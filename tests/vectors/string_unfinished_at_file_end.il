module \m
  parameter \p "abc