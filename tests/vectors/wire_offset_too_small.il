module \m
  wire offset -2147483649 \a
end
