module \m
  wire width 4 \a
  wire width 2 \b
  wire \y
cell \t \c
connect \A "AB" [7:0]
end
end
