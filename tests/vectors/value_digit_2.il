module \m
  parameter \p 4'012
end
