module \m
  parameter \p 1'0'0
end
