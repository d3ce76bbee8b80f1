module \m
  wire width 4 \a
  wire width 4 \b
  wire \y
  process \p
attribute \z 1
attribute \z 2
switch \a
end
  end
end
