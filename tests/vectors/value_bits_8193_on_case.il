module \m
process \p
switch { }
attribute \x 2048'
case
attribute \x 2048'
case
attribute \x 2048'
case
attribute \x 2048'
case
attribute \x 1'0
case
end
end
end
