module \m
  parameter \p "a""b"
end
