module \m
  wire width 4 \a
  wire width 4 \b
  wire \y
  process \p
switch \y
case
case 1'1
case 1'1
case 1'0 , 1'0
case
end
sync posedge \y
sync posedge \y
sync always
sync always
  end
end
