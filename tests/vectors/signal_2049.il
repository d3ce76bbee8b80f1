module \m
  wire width 2048 \a
cell \t \c
connect \A { \a 1'0 }
end
end
