module \m
  
end
