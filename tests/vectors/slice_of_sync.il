module \m
  wire width 4 \a
  wire width 4 \b
  wire \y
  process \p
sync low \a [0:1]
  end
end
