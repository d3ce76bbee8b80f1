module \m
  memory offset -2147483649 \a
end
