module \m
  parameter \p 1 2 3 %
end
