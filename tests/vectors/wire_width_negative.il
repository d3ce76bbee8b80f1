module \m
  wire width -1 \a
end
