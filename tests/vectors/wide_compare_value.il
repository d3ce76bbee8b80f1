module \m
  wire width 4 \a
  wire width 4 \b
  wire \y
  process \p
switch \y
case { 2048' 2048' }
end
  end
end
