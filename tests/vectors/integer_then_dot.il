module \m
  parameter \p 1.5
end
