module \m
  memory offset 1 offset 1 \a
end
