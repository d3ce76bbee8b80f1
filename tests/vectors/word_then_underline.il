module \m
  wire_ \a
end
