module \m
  {}[]:,
end
