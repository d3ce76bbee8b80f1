module \m
  wire $
end
