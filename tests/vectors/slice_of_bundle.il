module \m
  wire width 4 \a
  wire width 2 \b
  wire \y
cell \t \c
connect \A { \a \b } [3:1]
end
end
