module \m
  wire width 4 \a
  wire width 4 \b
  wire \y
  process \p
switch \a
attribute \z 2147483648
case
end
  end
end
