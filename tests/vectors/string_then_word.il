module \m
  parameter \p "a"end
end
