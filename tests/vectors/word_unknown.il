module \m
  foo \a
end
