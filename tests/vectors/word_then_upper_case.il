module \m
  wireX \a
end
