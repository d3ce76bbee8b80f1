module \m
  wir \a
end
