module \m
  parameter \p "\08"
end
