module \m
  _
end
