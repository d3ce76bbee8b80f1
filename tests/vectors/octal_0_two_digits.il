module \m
  parameter \p "\00"
end
