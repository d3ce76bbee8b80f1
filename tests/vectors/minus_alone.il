module \m
  parameter \p -
end
