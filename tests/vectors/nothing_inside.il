module \m
  wire width 4 \a
  wire width 4 \b
  wire \y
  process \p
switch \a
case
case \b
switch \y
end
end
sync global
sync posedge \y
sync init
  end
end
