module \m
  
end
