module \m
  parameter \p "\0001"
end
