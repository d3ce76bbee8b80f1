module \m
  wire width 4 \a
  wire width 4 \b
  wire \y
  process \p
switch \a
attribute \x 1
case
assign \a \b
attribute \x 2
switch \y
attribute \x 3
case
assign \y \y
attribute \x 4
switch \b
end
attribute \x 5
case 1'1
end
attribute \x 6
case \b
end
  end
end
