module \m
  parameter \p "abc # "" 
end
