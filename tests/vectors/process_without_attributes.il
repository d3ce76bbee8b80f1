module \m
  process $p
end
end
