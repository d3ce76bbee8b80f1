module \m
  wire width 4 offset -2 upto \o
cell \t \c
connect \A \o [3:2]
end
end
