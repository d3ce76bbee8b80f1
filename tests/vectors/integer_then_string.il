module \m
  parameter \p 1"a"
end
