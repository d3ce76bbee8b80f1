module \m
  connect 2049' 2049'
end
