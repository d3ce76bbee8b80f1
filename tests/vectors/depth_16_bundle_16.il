module \m
  wire width 4 \a
  wire width 4 \b
  wire \y
  process \p
switch \y
case
switch \y
case
switch \y
case
switch \y
case
switch \y
case
switch \y
case
switch \y
case
switch \y
case
switch \y
case
switch \y
case
switch \y
case
switch \y
case
switch \y
case
switch \y
case
switch \y
case
switch \y
case
assign { { { { { { { { { { { { { { { { \a } } } } } } } } } } } } } } } } \b
end
end
end
end
end
end
end
end
end
end
end
end
end
end
end
end
  end
end
