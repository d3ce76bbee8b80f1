module \m
  process \p