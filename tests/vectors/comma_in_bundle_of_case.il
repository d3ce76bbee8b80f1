module \m
  wire width 4 \a
  wire width 4 \b
  wire \y
  process \p
switch \y
case { 1'0 , 1'1 }
end
  end
end
