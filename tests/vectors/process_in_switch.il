module \m
  wire width 4 \a
  wire width 4 \b
  wire \y
  process \p
switch \a
process \q
end
end
  end
end
