module \m
  memory width 2 width 2 \a
end
