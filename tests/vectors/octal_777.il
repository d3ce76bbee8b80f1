module \m
  parameter \p "\777"
end
