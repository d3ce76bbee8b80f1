module \m
  wire width 4 \a
  wire width 2 \b
  wire \y
cell \t \c
connect \A { \y 3'101 } [3:2]
end
end
