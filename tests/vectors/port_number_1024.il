module \m
  wire output 1024 \a
end
