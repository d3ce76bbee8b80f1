module \m
  parameter \p 0'0
end
