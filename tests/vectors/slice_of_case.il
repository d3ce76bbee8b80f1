module \m
  wire width 4 \a
  wire width 4 \b
  wire \y
  process \p
switch \y
case 1'1 , \a [4]
end
  end
end
