module \m
  memory size 2147483648 \a
end
