module \m
  wire width 4 \a
  wire width 4 \b
  wire \y
  process \p
switch \y
case
switch \y
case
switch \y
case
switch \y
case
switch \y
case
switch \y
case
switch \y
case
switch \y
case
switch \y
case
switch \y
case
switch \y
case
switch \y
case
switch \y
case
switch \y
case
switch \y
case
switch \y
case
switch \nope
end
end
end
end
end
end
end
end
end
end
end
end
end
end
end
end
end
  end
end
