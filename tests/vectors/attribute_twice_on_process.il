module \m
  wire width 4 \a
  wire width 4 \b
  wire \y
attribute \z 1
attribute \z 2
  process \p
  end
end
