module \m
  wire offset 2147483648 \a
end
