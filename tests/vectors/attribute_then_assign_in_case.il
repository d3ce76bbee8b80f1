module \m
  wire width 4 \a
  wire width 4 \b
  wire \y
  process \p
switch \a
case
attribute \z 1
assign \a \b
end
  end
end
