module \m
  wire width 4 \a
  wire width 2 \b
  wire \y
cell \t \c
connect \A { \a [0] \a [1] \a [2] \a [3] }
end
end
