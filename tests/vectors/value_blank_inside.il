module \m
  parameter \p 1' 0
end
