module \m
  wire offset 0 offset 0 \a
end
