module \m
  ,
end
