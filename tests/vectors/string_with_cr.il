module \m
  parameter \p "abcdef"
end
