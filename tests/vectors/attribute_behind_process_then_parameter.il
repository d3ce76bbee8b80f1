module \m
  process \p 
  end
  attribute \p 1
  parameter \p
end
