module \m
  
end
