module \m
  wire width 0 \e
  wire \y
cell \t \c
connect \A { \e \y \e }
end
end
