module \m
  wire width 4 \a
  wire width 4 \b
  wire \y
  process \p
attribute \z 1
update \a \b
  end
end
