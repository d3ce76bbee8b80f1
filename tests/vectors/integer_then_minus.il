module \m
  parameter \p 1-
end
