module \m
  wire width 4 \a
  wire width 4 \b
  wire \y
  process \p
switch \a [2:1]
case { \a [0] 1'1 } , 2'1- , \b [3:2]
case "A" [1:0]
case -1 [1:0] , { \y \y }
end
  end
end
