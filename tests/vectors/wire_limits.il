module \m
  wire width 2048 \a
  wire width 0 \b
  wire offset 2147483647 \c
  wire offset -2147483648 \d
  wire width 2 offset 2147483646 \e
  wire width 0 offset 2147483647 \f
  wire width 2048 offset 2147481600 \g
  wire width 2048 offset -2147483648 \h
  wire input 1 \i
  wire output 1023 \j
end
