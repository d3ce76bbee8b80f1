module \m
  wires \a
end
