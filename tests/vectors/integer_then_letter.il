module \m
  parameter \p 12a
end
