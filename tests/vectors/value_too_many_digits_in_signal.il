module \m
  connect { 1'00 } 1'0
end
