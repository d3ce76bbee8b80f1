module \m
  memory width 2049 \a
end
