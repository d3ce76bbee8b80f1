module \m
  connect 2'01 2'10
  connect { } { }
end
