module \m
  memory size 1 offset 1 size 1 \a
end
