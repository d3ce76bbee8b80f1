module \m
  wire width 4 \a
  wire width 4 \b
  wire \y
  process \p
switch { }
case 1'0
end
  end
end
