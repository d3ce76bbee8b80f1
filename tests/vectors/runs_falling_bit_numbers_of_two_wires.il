module \m
  wire width 4 \a
  wire width 2 \b
  wire \y
cell \t \c
connect \A { \a [2] \b [1] \a [0] }
end
end
