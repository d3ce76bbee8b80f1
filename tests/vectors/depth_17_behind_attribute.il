module \m
  wire width 4 \a
  wire width 4 \b
  wire \y
  process \p
switch \y
case
switch \y
case
switch \y
case
switch \y
case
switch \y
case
switch \y
case
switch \y
case
switch \y
case
switch \y
case
switch \y
case
switch \y
case
switch \y
case
switch \y
case
switch \y
case
switch \y
case
switch \y
case
attribute \z 1
switch \b
end
end
end
end
end
end
end
end
end
end
end
end
end
end
end
end
end
  end
end
