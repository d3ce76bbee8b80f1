module \m
  wire1 \a
end
