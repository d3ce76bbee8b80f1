module \m
  wire width 4 \a
  wire width 4 \b
  wire \y
  process \p
assign { \a [1:0] \a [3:2] } \a
  end
end
