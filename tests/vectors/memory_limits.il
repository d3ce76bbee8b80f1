module \m
  memory width 2048 size 2147483647 offset 2147483647 \a
  memory size 1 offset -2147483648 \b
end
