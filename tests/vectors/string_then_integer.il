module \m
  parameter \p "a"1
end
