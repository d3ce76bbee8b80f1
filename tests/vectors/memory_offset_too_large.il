module \m
  memory offset 2147483648 \a
end
