module \m
# x
  