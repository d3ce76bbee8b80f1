module \m
  parameter \p "\0"
end
