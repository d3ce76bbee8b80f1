module \m
  wire width 4 \a
  wire width 4 \b
  wire \y
  cell \t \c
  end
  process \p
switch \c
end
  end
end
