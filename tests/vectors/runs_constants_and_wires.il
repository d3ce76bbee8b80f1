module \m
  wire width 4 \a
  wire width 2 \b
  wire \y
cell \t \c
connect \A { 1'0 \y 1'1 1'x \y \y 0' 1'z }
end
end
