module \m
process \p
switch { }
attribute \x 1
attribute \y 1
case
attribute \x 1
attribute \y 1
case
attribute \x 1
attribute \y 1
case
attribute \x 1
attribute \y 1
case
attribute \x 1
attribute \y 1
case
attribute \x 1
attribute \y 1
case
attribute \x 1
attribute \y 1
case
attribute \x 1
attribute \y 1
case
attribute \x 1
attribute \y 1
case
attribute \x 1
attribute \y 1
case
attribute \x 1
attribute \y 1
case
attribute \x 1
attribute \y 1
case
attribute \x 1
attribute \y 1
case
attribute \x 1
attribute \y 1
case
attribute \x 1
attribute \y 1
case
attribute \x 1
attribute \y 1
case
attribute \x 1
attribute \y 1
case
attribute \x 1
attribute \y 1
case
attribute \x 1
attribute \y 1
case
attribute \x 1
attribute \y 1
case
attribute \x 1
attribute \y 1
case
attribute \x 1
attribute \y 1
case
attribute \x 1
attribute \y 1
case
attribute \x 1
attribute \y 1
case
attribute \x 1
attribute \y 1
case
attribute \x 1
attribute \y 1
case
attribute \x 1
attribute \y 1
case
attribute \x 1
attribute \y 1
case
attribute \x 1
attribute \y 1
case
attribute \x 1
attribute \y 1
case
attribute \x 1
attribute \y 1
case
attribute \x 1
attribute \y 1
case
attribute \x 1
attribute \y 1
case
attribute \x 1
attribute \y 1
case
attribute \x 1
attribute \y 1
case
attribute \x 1
attribute \y 1
case
attribute \x 1
attribute \y 1
case
attribute \x 1
attribute \y 1
case
attribute \x 1
attribute \y 1
case
attribute \x 1
attribute \y 1
case
attribute \x 1
attribute \y 1
case
attribute \x 1
attribute \y 1
case
attribute \x 1
attribute \y 1
case
attribute \x 1
attribute \y 1
case
attribute \x 1
attribute \y 1
case
attribute \x 1
attribute \y 1
case
attribute \x 1
attribute \y 1
case
attribute \x 1
attribute \y 1
case
attribute \x 1
attribute \y 1
case
attribute \x 1
attribute \y 1
case
attribute \x 1
attribute \y 1
case
attribute \x 1
attribute \y 1
case
attribute \x 1
attribute \y 1
case
attribute \x 1
attribute \y 1
case
attribute \x 1
attribute \y 1
case
attribute \x 1
attribute \y 1
case
attribute \x 1
attribute \y 1
case
attribute \x 1
attribute \y 1
case
attribute \x 1
attribute \y 1
case
attribute \x 1
attribute \y 1
case
attribute \x 1
attribute \y 1
case
attribute \x 1
attribute \y 1
case
attribute \x 1
attribute \y 1
case
attribute \x 1
attribute \y 1
case
attribute \x 1
attribute \y 1
case
attribute \x 1
attribute \y 1
case
attribute \x 1
attribute \y 1
case
attribute \x 1
attribute \y 1
case
attribute \x 1
attribute \y 1
case
attribute \x 1
attribute \y 1
case
attribute \x 1
attribute \y 1
case
attribute \x 1
attribute \y 1
case
attribute \x 1
attribute \y 1
case
attribute \x 1
attribute \y 1
case
attribute \x 1
attribute \y 1
case
attribute \x 1
attribute \y 1
case
attribute \x 1
attribute \y 1
case
attribute \x 1
attribute \y 1
case
attribute \x 1
attribute \y 1
case
attribute \x 1
attribute \y 1
case
attribute \x 1
attribute \y 1
case
attribute \x 1
attribute \y 1
case
attribute \x 1
attribute \y 1
case
attribute \x 1
attribute \y 1
case
attribute \x 1
attribute \y 1
case
attribute \x 1
attribute \y 1
case
attribute \x 1
attribute \y 1
case
attribute \x 1
attribute \y 1
case
attribute \x 1
attribute \y 1
case
attribute \x 1
attribute \y 1
case
attribute \x 1
attribute \y 1
case
attribute \x 1
attribute \y 1
case
attribute \x 1
attribute \y 1
case
attribute \x 1
attribute \y 1
case
attribute \x 1
attribute \y 1
case
attribute \x 1
attribute \y 1
case
attribute \x 1
attribute \y 1
case
attribute \x 1
attribute \y 1
case
attribute \x 1
attribute \y 1
case
attribute \x 1
attribute \y 1
case
attribute \x 1
attribute \y 1
case
attribute \x 1
attribute \y 1
case
attribute \x 1
attribute \y 1
case
attribute \x 1
attribute \y 1
case
attribute \x 1
attribute \y 1
case
attribute \x 1
attribute \y 1
case
attribute \x 1
attribute \y 1
case
attribute \x 1
attribute \y 1
case
attribute \x 1
attribute \y 1
case
attribute \x 1
attribute \y 1
case
attribute \x 1
attribute \y 1
case
attribute \x 1
attribute \y 1
case
attribute \x 1
attribute \y 1
case
attribute \x 1
attribute \y 1
case
attribute \x 1
attribute \y 1
case
attribute \x 1
attribute \y 1
case
attribute \x 1
attribute \y 1
case
attribute \x 1
attribute \y 1
case
attribute \x 1
attribute \y 1
case
attribute \x 1
attribute \y 1
case
attribute \x 1
attribute \y 1
case
attribute \x 1
attribute \y 1
case
attribute \x 1
attribute \y 1
case
attribute \x 1
attribute \y 1
case
attribute \x 1
attribute \y 1
case
attribute \x 1
attribute \y 1
case
attribute \x 1
attribute \y 1
case
attribute \x 1
attribute \y 1
case
attribute \x 1
attribute \y 1
case
attribute \x 1
attribute \y 1
case
attribute \x 1
attribute \y 1
case
attribute \x 1
attribute \y 1
case
attribute \x 1
attribute \y 1
case
attribute \x 1
attribute \y 1
case
attribute \x 1
attribute \y 1
case
attribute \x 1
attribute \y 1
case
attribute \x 1
attribute \y 1
case
attribute \x 1
attribute \y 1
case
attribute \x 1
attribute \y 1
case
attribute \x 1
attribute \y 1
case
attribute \x 1
attribute \y 1
case
attribute \x 1
attribute \y 1
case
attribute \x 1
attribute \y 1
case
attribute \x 1
attribute \y 1
case
attribute \x 1
attribute \y 1
case
attribute \x 1
attribute \y 1
case
attribute \x 1
attribute \y 1
case
attribute \x 1
attribute \y 1
case
attribute \x 1
attribute \y 1
case
attribute \x 1
attribute \y 1
case
attribute \x 1
attribute \y 1
case
attribute \x 1
attribute \y 1
case
attribute \x 1
attribute \y 1
case
attribute \x 1
attribute \y 1
case
attribute \x 1
attribute \y 1
case
attribute \x 1
attribute \y 1
case
attribute \x 1
attribute \y 1
case
attribute \x 1
attribute \y 1
case
attribute \x 1
attribute \y 1
case
attribute \x 1
attribute \y 1
case
attribute \x 1
attribute \y 1
case
attribute \x 1
attribute \y 1
case
attribute \x 1
attribute \y 1
case
attribute \x 1
attribute \y 1
case
attribute \x 1
attribute \y 1
case
attribute \x 1
attribute \y 1
case
attribute \x 1
attribute \y 1
case
attribute \x 1
attribute \y 1
case
attribute \x 1
attribute \y 1
case
attribute \x 1
attribute \y 1
case
attribute \x 1
attribute \y 1
case
attribute \x 1
attribute \y 1
case
attribute \x 1
attribute \y 1
case
attribute \x 1
attribute \y 1
case
attribute \x 1
attribute \y 1
case
attribute \x 1
attribute \y 1
case
attribute \x 1
attribute \y 1
case
attribute \x 1
attribute \y 1
case
attribute \x 1
attribute \y 1
case
attribute \x 1
attribute \y 1
case
attribute \x 1
attribute \y 1
case
attribute \x 1
attribute \y 1
case
attribute \x 1
attribute \y 1
case
attribute \x 1
attribute \y 1
case
attribute \x 1
attribute \y 1
case
attribute \x 1
attribute \y 1
case
attribute \x 1
attribute \y 1
case
attribute \x 1
attribute \y 1
case
attribute \x 1
attribute \y 1
case
attribute \x 1
attribute \y 1
case
attribute \x 1
attribute \y 1
case
attribute \x 1
attribute \y 1
case
attribute \x 1
attribute \y 1
case
attribute \x 1
attribute \y 1
case
attribute \x 1
attribute \y 1
case
attribute \x 1
attribute \y 1
case
attribute \x 1
attribute \y 1
case
attribute \x 1
attribute \y 1
case
attribute \x 1
attribute \y 1
case
attribute \x 1
attribute \y 1
case
attribute \x 1
attribute \y 1
case
attribute \x 1
attribute \y 1
case
attribute \x 1
attribute \y 1
case
attribute \x 1
attribute \y 1
case
attribute \x 1
attribute \y 1
case
attribute \x 1
attribute \y 1
case
attribute \x 1
attribute \y 1
case
attribute \x 1
attribute \y 1
case
attribute \x 1
attribute \y 1
case
attribute \x 1
attribute \y 1
case
attribute \x 1
attribute \y 1
case
attribute \x 1
attribute \y 1
case
attribute \x 1
attribute \y 1
case
attribute \x 1
attribute \y 1
case
attribute \x 1
attribute \y 1
case
attribute \x 1
attribute \y 1
case
attribute \x 1
attribute \y 1
case
attribute \x 1
attribute \y 1
case
attribute \x 1
attribute \y 1
case
attribute \x 1
attribute \y 1
case
attribute \x 1
attribute \y 1
case
attribute \x 1
attribute \y 1
case
attribute \x 1
attribute \y 1
case
attribute \x 1
attribute \y 1
case
attribute \x 1
attribute \y 1
case
attribute \x 1
attribute \y 1
case
attribute \x 1
attribute \y 1
case
attribute \x 1
attribute \y 1
case
attribute \x 1
attribute \y 1
case
attribute \x 1
attribute \y 1
case
attribute \x 1
attribute \y 1
case
attribute \x 1
attribute \y 1
case
attribute \x 1
attribute \y 1
case
attribute \x 1
attribute \y 1
case
attribute \x 1
attribute \y 1
case
attribute \x 1
attribute \y 1
case
attribute \x 1
attribute \y 1
case
attribute \x 1
attribute \y 1
case
attribute \x 1
attribute \y 1
case
attribute \x 1
attribute \y 1
case
attribute \x 1
attribute \y 1
case
attribute \x 1
attribute \y 1
case
attribute \x 1
attribute \y 1
case
attribute \x 1
attribute \y 1
case
attribute \x 1
attribute \y 1
case
attribute \x 1
attribute \y 1
case
attribute \x 1
attribute \y 1
case
attribute \x 1
attribute \y 1
case
attribute \x 1
attribute \y 1
case
attribute \x 1
attribute \y 1
case
attribute \x 1
attribute \y 1
case
attribute \x 1
attribute \y 1
case
attribute \x 1
attribute \y 1
case
attribute \x 1
attribute \y 1
case
attribute \x 1
attribute \y 1
case
attribute \x 1
attribute \y 1
case
attribute \x 1
attribute \y 1
case
attribute \x 1
attribute \y 1
case
attribute \x 1
attribute \y 1
case
attribute \x 1
attribute \y 1
case
attribute \x 1
attribute \y 1
case
attribute \x 1
attribute \y 1
case
attribute \x 1
attribute \y 1
case
attribute \x 1
attribute \y 1
case
attribute \x 1
attribute \y 1
case
attribute \x 1
attribute \y 1
case
attribute \x 1
attribute \y 1
case
attribute \x 1
attribute \y 1
case
attribute \x 1
attribute \y 1
case
attribute \x 1
attribute \y 1
case
attribute \x 1
attribute \y 1
case
attribute \x 1
attribute \y 1
case
attribute \x 1
attribute \y 1
case
attribute \x 1
attribute \y 1
case
attribute \x 1
attribute \y 1
case
attribute \x 1
attribute \y 1
case
attribute \x 1
attribute \y 1
case
attribute \x 1
attribute \y 1
case
attribute \x 1
attribute \y 1
case
attribute \x 1
attribute \y 1
case
attribute \x 1
attribute \y 1
case
attribute \x 1
attribute \y 1
case
attribute \x 1
attribute \y 1
case
attribute \x 1
attribute \y 1
case
attribute \x 1
attribute \y 1
case
attribute \x 1
attribute \y 1
case
attribute \x 1
attribute \y 1
case
attribute \x 1
attribute \y 1
case
attribute \x 1
attribute \y 1
case
attribute \x 1
attribute \y 1
case
attribute \x 1
attribute \y 1
case
attribute \x 1
attribute \y 1
case
attribute \x 1
attribute \y 1
case
attribute \x 1
attribute \y 1
case
attribute \x 1
attribute \y 1
case
attribute \x 1
attribute \y 1
case
attribute \x 1
attribute \y 1
case
attribute \x 1
attribute \y 1
case
attribute \x 1
attribute \y 1
case
attribute \x 1
attribute \y 1
case
attribute \x 1
attribute \y 1
case
attribute \x 1
attribute \y 1
case
attribute \x 1
attribute \y 1
case
attribute \x 1
attribute \y 1
case
attribute \x 1
attribute \y 1
case
attribute \x 1
attribute \y 1
case
attribute \x 1
attribute \y 1
case
attribute \x 1
attribute \y 1
case
attribute \x 1
attribute \y 1
case
attribute \x 1
attribute \y 1
case
attribute \x 1
attribute \y 1
case
attribute \x 1
attribute \y 1
case
attribute \x 1
attribute \y 1
case
attribute \x 1
attribute \y 1
case
attribute \x 1
attribute \y 1
case
attribute \x 1
attribute \y 1
case
attribute \x 1
attribute \y 1
case
attribute \x 1
attribute \y 1
case
attribute \x 1
attribute \y 1
case
attribute \x 1
attribute \y 1
case
attribute \x 1
attribute \y 1
case
attribute \x 1
attribute \y 1
case
attribute \x 1
attribute \y 1
case
attribute \x 1
attribute \y 1
case
attribute \x 1
attribute \y 1
case
attribute \x 1
attribute \y 1
case
attribute \x 1
attribute \y 1
case
attribute \x 1
attribute \y 1
case
attribute \x 1
attribute \y 1
case
attribute \x 1
attribute \y 1
case
attribute \x 1
attribute \y 1
case
attribute \x 1
attribute \y 1
case
attribute \x 1
attribute \y 1
case
attribute \x 1
attribute \y 1
case
attribute \x 1
attribute \y 1
case
attribute \x 1
attribute \y 1
case
attribute \x 1
attribute \y 1
case
attribute \x 1
attribute \y 1
case
attribute \x 1
attribute \y 1
case
attribute \x 1
attribute \y 1
case
attribute \x 1
attribute \y 1
case
attribute \x 1
attribute \y 1
case
attribute \x 1
attribute \y 1
case
attribute \x 1
attribute \y 1
case
attribute \x 1
attribute \y 1
case
attribute \x 1
attribute \y 1
case
attribute \x 1
attribute \y 1
case
attribute \x 1
attribute \y 1
case
attribute \x 1
attribute \y 1
case
attribute \x 1
attribute \y 1
case
attribute \x 1
attribute \y 1
case
attribute \x 1
attribute \y 1
case
attribute \x 1
attribute \y 1
case
attribute \x 1
attribute \y 1
case
attribute \x 1
attribute \y 1
case
attribute \x 1
attribute \y 1
case
attribute \x 1
attribute \y 1
case
attribute \x 1
attribute \y 1
case
attribute \x 1
attribute \y 1
case
attribute \x 1
attribute \y 1
case
attribute \x 1
attribute \y 1
case
attribute \x 1
attribute \y 1
case
attribute \x 1
attribute \y 1
case
attribute \x 1
attribute \y 1
case
attribute \x 1
attribute \y 1
case
attribute \x 1
attribute \y 1
case
attribute \x 1
attribute \y 1
case
attribute \x 1
attribute \y 1
case
attribute \x 1
attribute \y 1
case
attribute \x 1
attribute \y 1
case
attribute \x 1
attribute \y 1
case
attribute \x 1
attribute \y 1
case
attribute \x 1
attribute \y 1
case
attribute \x 1
attribute \y 1
case
attribute \x 1
attribute \y 1
case
attribute \x 1
attribute \y 1
case
attribute \x 1
attribute \y 1
case
attribute \x 1
attribute \y 1
case
attribute \x 1
attribute \y 1
case
attribute \x 1
attribute \y 1
case
attribute \x 1
attribute \y 1
case
attribute \x 1
attribute \y 1
case
attribute \x 1
attribute \y 1
case
attribute \x 1
attribute \y 1
case
attribute \x 1
attribute \y 1
case
attribute \x 1
attribute \y 1
case
attribute \x 1
attribute \y 1
case
attribute \x 1
attribute \y 1
case
attribute \x 1
attribute \y 1
case
attribute \x 1
attribute \y 1
case
attribute \x 1
attribute \y 1
case
attribute \x 1
attribute \y 1
case
attribute \x 1
attribute \y 1
case
attribute \x 1
attribute \y 1
case
attribute \x 1
attribute \y 1
case
attribute \x 1
attribute \y 1
case
attribute \x 1
attribute \y 1
case
attribute \x 1
attribute \y 1
case
attribute \x 1
attribute \y 1
case
attribute \x 1
attribute \y 1
case
attribute \x 1
attribute \y 1
case
attribute \x 1
attribute \y 1
case
attribute \x 1
attribute \y 1
case
attribute \x 1
attribute \y 1
case
attribute \x 1
attribute \y 1
case
attribute \x 1
attribute \y 1
case
attribute \x 1
attribute \y 1
case
attribute \x 1
attribute \y 1
case
attribute \x 1
attribute \y 1
case
attribute \x 1
attribute \y 1
case
attribute \x 1
attribute \y 1
case
attribute \x 1
attribute \y 1
case
attribute \x 1
attribute \y 1
case
attribute \x 1
attribute \y 1
case
attribute \x 1
attribute \y 1
case
attribute \x 1
attribute \y 1
case
attribute \x 1
attribute \y 1
case
attribute \x 1
attribute \y 1
case
attribute \x 1
attribute \y 1
case
attribute \x 1
attribute \y 1
case
attribute \x 1
attribute \y 1
case
attribute \x 1
attribute \y 1
case
attribute \x 1
attribute \y 1
case
attribute \x 1
attribute \y 1
case
attribute \x 1
attribute \y 1
case
attribute \x 1
attribute \y 1
case
attribute \x 1
attribute \y 1
case
attribute \x 1
attribute \y 1
case
attribute \x 1
attribute \y 1
case
attribute \x 1
attribute \y 1
case
attribute \x 1
attribute \y 1
case
attribute \x 1
attribute \y 1
case
attribute \x 1
attribute \y 1
case
attribute \x 1
attribute \y 1
case
attribute \x 1
attribute \y 1
case
attribute \x 1
attribute \y 1
case
attribute \x 1
attribute \y 1
case
attribute \x 1
attribute \y 1
case
attribute \x 1
attribute \y 1
case
attribute \x 1
attribute \y 1
case
attribute \x 1
attribute \y 1
case
attribute \x 1
attribute \y 1
case
attribute \x 1
attribute \y 1
case
attribute \x 1
attribute \y 1
case
attribute \x 1
attribute \y 1
case
attribute \x 1
attribute \y 1
case
attribute \x 1
attribute \y 1
case
attribute \x 1
attribute \y 1
case
attribute \x 1
attribute \y 1
case
attribute \x 1
attribute \y 1
case
attribute \x 1
attribute \y 1
case
attribute \x 1
attribute \y 1
case
attribute \x 1
attribute \y 1
case
attribute \x 1
attribute \y 1
case
attribute \x 1
attribute \y 1
case
attribute \x 1
attribute \y 1
case
attribute \x 1
attribute \y 1
case
attribute \x 1
attribute \y 1
case
attribute \x 1
attribute \y 1
case
attribute \x 1
attribute \y 1
case
attribute \x 1
attribute \y 1
case
attribute \x 1
attribute \y 1
case
attribute \x 1
attribute \y 1
case
attribute \x 1
attribute \y 1
case
attribute \x 1
attribute \y 1
case
attribute \x 1
attribute \y 1
case
attribute \x 1
attribute \y 1
case
attribute \x 1
attribute \y 1
case
attribute \x 1
attribute \y 1
case
attribute \x 1
attribute \y 1
case
attribute \x 1
attribute \y 1
case
attribute \x 1
attribute \y 1
case
attribute \x 1
attribute \y 1
case
attribute \x 1
attribute \y 1
case
attribute \x 1
attribute \y 1
case
attribute \x 1
attribute \y 1
case
attribute \x 1
attribute \y 1
case
attribute \x 1
attribute \y 1
case
attribute \x 1
attribute \y 1
case
attribute \x 1
attribute \y 1
case
attribute \x 1
attribute \y 1
case
attribute \x 1
attribute \y 1
case
attribute \x 1
attribute \y 1
case
attribute \x 1
attribute \y 1
case
attribute \x 1
attribute \y 1
case
attribute \x 1
attribute \y 1
case
attribute \x 1
attribute \y 1
case
attribute \x 1
attribute \y 1
case
attribute \x 1
attribute \y 1
case
attribute \x 1
attribute \y 1
case
attribute \x 1
attribute \y 1
case
attribute \x 1
attribute \y 1
case
attribute \x 1
attribute \y 1
case
attribute \x 1
attribute \y 1
case
attribute \x 1
attribute \y 1
case
attribute \x 1
attribute \y 1
case
attribute \x 1
attribute \y 1
case
attribute \x 1
attribute \y 1
case
attribute \x 1
attribute \y 1
case
attribute \x 1
attribute \y 1
case
attribute \x 1
attribute \y 1
case
attribute \x 1
attribute \y 1
case
attribute \x 1
attribute \y 1
case
attribute \x 1
attribute \y 1
case
attribute \x 1
attribute \y 1
case
attribute \x 1
attribute \y 1
case
attribute \x 1
attribute \y 1
case
attribute \x 1
attribute \y 1
case
attribute \x 1
attribute \y 1
case
attribute \x 1
attribute \y 1
case
attribute \x 1
attribute \y 1
case
attribute \x 1
attribute \y 1
case
attribute \x 1
case
end
end
end
