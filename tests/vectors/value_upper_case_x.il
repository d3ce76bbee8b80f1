module \m
  parameter \p 1'X
end
