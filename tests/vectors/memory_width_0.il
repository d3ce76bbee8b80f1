module \m
  memory width 0 \a
end
