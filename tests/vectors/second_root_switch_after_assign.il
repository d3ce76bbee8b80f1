module \m
  wire width 4 \a
  wire width 4 \b
  wire \y
  process \p
switch \a
end
assign \a \b
switch \b
end
  end
end
