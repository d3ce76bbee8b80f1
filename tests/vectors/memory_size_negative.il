module \m
  memory size -1 \a
end
