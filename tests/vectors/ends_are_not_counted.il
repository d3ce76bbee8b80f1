module \m
process \p
switch { }
case
switch { }
end
switch { }
end
switch { }
end
switch { }
end
switch { }
end
switch { }
end
switch { }
end
switch { }
end
switch { }
end
switch { }
end
switch { }
end
switch { }
end
switch { }
end
switch { }
end
switch { }
end
switch { }
end
switch { }
end
switch { }
end
switch { }
end
switch { }
end
switch { }
end
switch { }
end
switch { }
end
switch { }
end
switch { }
end
switch { }
end
switch { }
end
switch { }
end
switch { }
end
switch { }
end
switch { }
end
switch { }
end
switch { }
end
switch { }
end
switch { }
end
switch { }
end
switch { }
end
switch { }
end
switch { }
end
switch { }
end
switch { }
end
switch { }
end
switch { }
end
switch { }
end
switch { }
end
switch { }
end
switch { }
end
switch { }
end
switch { }
end
switch { }
end
switch { }
end
switch { }
end
switch { }
end
switch { }
end
switch { }
end
switch { }
end
switch { }
end
switch { }
end
switch { }
end
switch { }
end
switch { }
end
switch { }
end
switch { }
end
switch { }
end
switch { }
end
switch { }
end
switch { }
end
switch { }
end
switch { }
end
switch { }
end
switch { }
end
switch { }
end
switch { }
end
switch { }
end
switch { }
end
switch { }
end
switch { }
end
switch { }
end
switch { }
end
switch { }
end
switch { }
end
switch { }
end
switch { }
end
switch { }
end
switch { }
end
switch { }
end
switch { }
end
switch { }
end
switch { }
end
switch { }
end
switch { }
end
switch { }
end
switch { }
end
switch { }
end
switch { }
end
switch { }
end
switch { }
end
switch { }
end
switch { }
end
switch { }
end
switch { }
end
switch { }
end
switch { }
end
switch { }
end
switch { }
end
switch { }
end
switch { }
end
switch { }
end
switch { }
end
switch { }
end
switch { }
end
switch { }
end
switch { }
end
switch { }
end
switch { }
end
switch { }
end
switch { }
end
switch { }
end
switch { }
end
switch { }
end
switch { }
end
switch { }
end
switch { }
end
switch { }
end
switch { }
end
switch { }
end
switch { }
end
switch { }
end
switch { }
end
switch { }
end
switch { }
end
switch { }
end
switch { }
end
switch { }
end
switch { }
end
switch { }
end
switch { }
end
switch { }
end
switch { }
end
switch { }
end
switch { }
end
switch { }
end
switch { }
end
switch { }
end
switch { }
end
switch { }
end
switch { }
end
switch { }
end
switch { }
end
switch { }
end
switch { }
end
switch { }
end
switch { }
end
switch { }
end
switch { }
end
switch { }
end
switch { }
end
switch { }
end
switch { }
end
switch { }
end
switch { }
end
switch { }
end
switch { }
end
switch { }
end
switch { }
end
switch { }
end
switch { }
end
switch { }
end
switch { }
end
switch { }
end
switch { }
end
switch { }
end
switch { }
end
switch { }
end
switch { }
end
switch { }
end
switch { }
end
switch { }
end
switch { }
end
switch { }
end
switch { }
end
switch { }
end
switch { }
end
switch { }
end
switch { }
end
switch { }
end
switch { }
end
switch { }
end
switch { }
end
switch { }
end
switch { }
end
switch { }
end
switch { }
end
switch { }
end
switch { }
end
switch { }
end
switch { }
end
switch { }
end
switch { }
end
switch { }
end
switch { }
end
switch { }
end
switch { }
end
switch { }
end
switch { }
end
switch { }
end
switch { }
end
switch { }
end
switch { }
end
switch { }
end
switch { }
end
switch { }
end
switch { }
end
switch { }
end
switch { }
end
switch { }
end
switch { }
end
switch { }
end
switch { }
end
switch { }
end
switch { }
end
switch { }
end
switch { }
end
switch { }
end
switch { }
end
switch { }
end
switch { }
end
switch { }
end
switch { }
end
switch { }
end
switch { }
end
switch { }
end
switch { }
end
switch { }
end
switch { }
end
switch { }
end
switch { }
end
switch { }
end
switch { }
end
switch { }
end
switch { }
end
switch { }
end
switch { }
end
switch { }
end
switch { }
end
switch { }
end
switch { }
end
switch { }
end
switch { }
end
switch { }
end
switch { }
end
switch { }
end
switch { }
end
switch { }
end
switch { }
end
switch { }
end
switch { }
end
switch { }
end
switch { }
end
switch { }
end
switch { }
end
switch { }
end
switch { }
end
switch { }
end
switch { }
end
switch { }
end
switch { }
end
switch { }
end
switch { }
end
switch { }
end
switch { }
end
switch { }
end
switch { }
end
switch { }
end
switch { }
end
switch { }
end
switch { }
end
switch { }
end
switch { }
end
switch { }
end
switch { }
end
switch { }
end
switch { }
end
switch { }
end
switch { }
end
switch { }
end
switch { }
end
switch { }
end
switch { }
end
switch { }
end
switch { }
end
switch { }
end
switch { }
end
switch { }
end
switch { }
end
switch { }
end
switch { }
end
switch { }
end
switch { }
end
switch { }
end
switch { }
end
switch { }
end
switch { }
end
switch { }
end
switch { }
end
switch { }
end
switch { }
end
switch { }
end
switch { }
end
switch { }
end
switch { }
end
switch { }
end
switch { }
end
switch { }
end
switch { }
end
switch { }
end
switch { }
end
switch { }
end
switch { }
end
switch { }
end
switch { }
end
switch { }
end
switch { }
end
switch { }
end
switch { }
end
switch { }
end
switch { }
end
switch { }
end
switch { }
end
switch { }
end
switch { }
end
switch { }
end
switch { }
end
switch { }
end
switch { }
end
switch { }
end
switch { }
end
switch { }
end
switch { }
end
switch { }
end
switch { }
end
switch { }
end
switch { }
end
switch { }
end
switch { }
end
switch { }
end
switch { }
end
switch { }
end
switch { }
end
switch { }
end
switch { }
end
switch { }
end
switch { }
end
switch { }
end
switch { }
end
switch { }
end
switch { }
end
switch { }
end
switch { }
end
switch { }
end
switch { }
end
switch { }
end
switch { }
end
switch { }
end
switch { }
end
switch { }
end
switch { }
end
switch { }
end
switch { }
end
switch { }
end
switch { }
end
switch { }
end
switch { }
end
switch { }
end
switch { }
end
switch { }
end
switch { }
end
switch { }
end
switch { }
end
switch { }
end
switch { }
end
switch { }
end
switch { }
end
switch { }
end
switch { }
end
switch { }
end
switch { }
end
switch { }
end
switch { }
end
switch { }
end
switch { }
end
switch { }
end
switch { }
end
switch { }
end
switch { }
end
switch { }
end
switch { }
end
switch { }
end
switch { }
end
switch { }
end
switch { }
end
switch { }
end
switch { }
end
switch { }
end
switch { }
end
switch { }
end
switch { }
end
switch { }
end
switch { }
end
switch { }
end
switch { }
end
switch { }
end
switch { }
end
switch { }
end
switch { }
end
switch { }
end
switch { }
end
switch { }
end
switch { }
end
switch { }
end
switch { }
end
switch { }
end
switch { }
end
switch { }
end
switch { }
end
switch { }
end
switch { }
end
switch { }
end
switch { }
end
switch { }
end
switch { }
end
switch { }
end
switch { }
end
switch { }
end
switch { }
end
switch { }
end
switch { }
end
switch { }
end
switch { }
end
switch { }
end
switch { }
end
switch { }
end
switch { }
end
switch { }
end
switch { }
end
switch { }
end
switch { }
end
switch { }
end
switch { }
end
switch { }
end
switch { }
end
switch { }
end
switch { }
end
switch { }
end
switch { }
end
switch { }
end
switch { }
end
switch { }
end
switch { }
end
switch { }
end
switch { }
end
switch { }
end
switch { }
end
switch { }
end
switch { }
end
switch { }
end
switch { }
end
switch { }
end
switch { }
end
switch { }
end
switch { }
end
switch { }
end
switch { }
end
switch { }
end
switch { }
end
switch { }
end
switch { }
end
switch { }
end
switch { }
end
switch { }
end
switch { }
end
switch { }
end
switch { }
end
switch { }
end
switch { }
end
switch { }
end
switch { }
end
switch { }
end
switch { }
end
switch { }
end
switch { }
end
switch { }
end
switch { }
end
switch { }
end
switch { }
end
switch { }
end
switch { }
end
switch { }
end
switch { }
end
switch { }
end
switch { }
end
switch { }
end
switch { }
end
switch { }
end
switch { }
end
switch { }
end
switch { }
end
switch { }
end
switch { }
end
switch { }
end
switch { }
end
switch { }
end
switch { }
end
switch { }
end
switch { }
end
switch { }
end
switch { }
end
switch { }
end
switch { }
end
switch { }
end
switch { }
end
switch { }
end
switch { }
end
switch { }
end
switch { }
end
switch { }
end
switch { }
end
switch { }
end
switch { }
end
switch { }
end
switch { }
end
switch { }
end
switch { }
end
switch { }
end
switch { }
end
switch { }
end
switch { }
end
switch { }
end
switch { }
end
switch { }
end
switch { }
end
switch { }
end
switch { }
end
switch { }
end
switch { }
end
switch { }
end
switch { }
end
switch { }
end
switch { }
end
switch { }
end
switch { }
end
switch { }
end
switch { }
end
switch { }
end
switch { }
end
switch { }
end
switch { }
end
switch { }
end
switch { }
end
switch { }
end
switch { }
end
switch { }
end
switch { }
end
switch { }
end
switch { }
end
switch { }
end
switch { }
end
switch { }
end
switch { }
end
switch { }
end
switch { }
end
switch { }
end
switch { }
end
switch { }
end
switch { }
end
switch { }
end
switch { }
end
switch { }
end
switch { }
end
switch { }
end
switch { }
end
switch { }
end
switch { }
end
switch { }
end
switch { }
end
switch { }
end
switch { }
end
switch { }
end
switch { }
end
switch { }
end
switch { }
end
switch { }
end
switch { }
end
switch { }
end
switch { }
end
switch { }
end
switch { }
end
switch { }
end
switch { }
end
switch { }
end
switch { }
end
switch { }
end
switch { }
end
switch { }
end
switch { }
end
switch { }
end
switch { }
end
switch { }
end
switch { }
end
switch { }
end
switch { }
end
switch { }
end
switch { }
end
switch { }
end
switch { }
end
switch { }
end
switch { }
end
switch { }
end
switch { }
end
switch { }
end
switch { }
end
switch { }
end
switch { }
end
switch { }
end
switch { }
end
switch { }
end
switch { }
end
switch { }
end
switch { }
end
switch { }
end
switch { }
end
switch { }
end
switch { }
end
switch { }
end
switch { }
end
switch { }
end
switch { }
end
switch { }
end
switch { }
end
switch { }
end
switch { }
end
switch { }
end
switch { }
end
switch { }
end
switch { }
end
switch { }
end
switch { }
end
switch { }
end
switch { }
end
switch { }
end
switch { }
end
switch { }
end
switch { }
end
switch { }
end
switch { }
end
switch { }
end
switch { }
end
switch { }
end
switch { }
end
switch { }
end
switch { }
end
switch { }
end
switch { }
end
switch { }
end
switch { }
end
switch { }
end
switch { }
end
switch { }
end
switch { }
end
switch { }
end
switch { }
end
switch { }
end
switch { }
end
switch { }
end
switch { }
end
switch { }
end
switch { }
end
switch { }
end
switch { }
end
switch { }
end
switch { }
end
switch { }
end
switch { }
end
switch { }
end
switch { }
end
switch { }
end
switch { }
end
switch { }
end
switch { }
end
switch { }
end
switch { }
end
switch { }
end
switch { }
end
switch { }
end
switch { }
end
switch { }
end
switch { }
end
switch { }
end
switch { }
end
switch { }
end
switch { }
end
switch { }
end
switch { }
end
switch { }
end
switch { }
end
switch { }
end
switch { }
end
switch { }
end
switch { }
end
switch { }
end
switch { }
end
switch { }
end
switch { }
end
switch { }
end
switch { }
end
switch { }
end
switch { }
end
switch { }
end
switch { }
end
switch { }
end
switch { }
end
switch { }
end
switch { }
end
switch { }
end
switch { }
end
switch { }
end
switch { }
end
switch { }
end
switch { }
end
switch { }
end
switch { }
end
switch { }
end
switch { }
end
switch { }
end
switch { }
end
switch { }
end
switch { }
end
switch { }
end
switch { }
end
switch { }
end
switch { }
end
switch { }
end
switch { }
end
switch { }
end
switch { }
end
switch { }
end
switch { }
end
switch { }
end
switch { }
end
switch { }
end
switch { }
end
switch { }
end
switch { }
end
switch { }
end
switch { }
end
switch { }
end
switch { }
end
switch { }
end
switch { }
end
switch { }
end
switch { }
end
switch { }
end
switch { }
end
switch { }
end
switch { }
end
switch { }
end
switch { }
end
switch { }
end
switch { }
end
switch { }
end
switch { }
end
switch { }
end
switch { }
end
switch { }
end
switch { }
end
switch { }
end
switch { }
end
switch { }
end
switch { }
end
switch { }
end
switch { }
end
switch { }
end
switch { }
end
switch { }
end
switch { }
end
switch { }
end
switch { }
end
switch { }
end
switch { }
end
switch { }
end
switch { }
end
switch { }
end
switch { }
end
switch { }
end
switch { }
end
switch { }
end
switch { }
end
switch { }
end
switch { }
end
switch { }
end
switch { }
end
switch { }
end
switch { }
end
switch { }
end
switch { }
end
switch { }
end
switch { }
end
switch { }
end
switch { }
end
switch { }
end
switch { }
end
switch { }
end
switch { }
end
switch { }
end
switch { }
end
switch { }
end
switch { }
end
switch { }
end
switch { }
end
switch { }
end
switch { }
end
switch { }
end
switch { }
end
switch { }
end
switch { }
end
switch { }
end
switch { }
end
switch { }
end
switch { }
end
switch { }
end
switch { }
end
switch { }
end
switch { }
end
switch { }
end
switch { }
end
switch { }
end
switch { }
end
switch { }
end
switch { }
end
switch { }
end
switch { }
end
switch { }
end
switch { }
end
switch { }
end
switch { }
end
switch { }
end
switch { }
end
switch { }
end
switch { }
end
switch { }
end
switch { }
end
switch { }
end
switch { }
end
switch { }
end
switch { }
end
switch { }
end
switch { }
end
switch { }
end
switch { }
end
switch { }
end
switch { }
end
switch { }
end
switch { }
end
switch { }
end
switch { }
end
switch { }
end
switch { }
end
switch { }
end
switch { }
end
switch { }
end
switch { }
end
switch { }
end
switch { }
end
switch { }
end
switch { }
end
switch { }
end
switch { }
end
switch { }
end
switch { }
end
switch { }
end
switch { }
end
switch { }
end
switch { }
end
switch { }
end
switch { }
end
switch { }
end
switch { }
end
switch { }
end
switch { }
end
switch { }
end
switch { }
end
switch { }
end
switch { }
end
switch { }
end
switch { }
end
switch { }
end
switch { }
end
switch { }
end
switch { }
end
switch { }
end
switch { }
end
switch { }
end
switch { }
end
switch { }
end
switch { }
end
switch { }
end
switch { }
end
switch { }
end
switch { }
end
switch { }
end
switch { }
end
switch { }
end
switch { }
end
switch { }
end
switch { }
end
switch { }
end
switch { }
end
switch { }
end
switch { }
end
switch { }
end
switch { }
end
switch { }
end
switch { }
end
switch { }
end
switch { }
end
switch { }
end
switch { }
end
switch { }
end
switch { }
end
switch { }
end
switch { }
end
switch { }
end
switch { }
end
switch { }
end
switch { }
end
switch { }
end
switch { }
end
switch { }
end
switch { }
end
switch { }
end
switch { }
end
switch { }
end
switch { }
end
switch { }
end
switch { }
end
switch { }
end
switch { }
end
switch { }
end
switch { }
end
switch { }
end
switch { }
end
switch { }
end
switch { }
end
switch { }
end
switch { }
end
switch { }
end
switch { }
end
switch { }
end
switch { }
end
switch { }
end
switch { }
end
switch { }
end
switch { }
end
switch { }
end
switch { }
end
switch { }
end
switch { }
end
switch { }
end
switch { }
end
switch { }
end
switch { }
end
switch { }
end
switch { }
end
switch { }
end
switch { }
end
switch { }
end
switch { }
end
switch { }
end
switch { }
end
switch { }
end
switch { }
end
switch { }
end
switch { }
end
switch { }
end
switch { }
end
switch { }
end
switch { }
end
switch { }
end
switch { }
end
switch { }
end
switch { }
end
switch { }
end
switch { }
end
switch { }
end
switch { }
end
switch { }
end
switch { }
end
switch { }
end
switch { }
end
switch { }
end
switch { }
end
switch { }
end
switch { }
end
switch { }
end
switch { }
end
switch { }
end
switch { }
end
switch { }
end
switch { }
end
switch { }
end
switch { }
end
switch { }
end
switch { }
end
switch { }
end
switch { }
end
switch { }
end
switch { }
end
switch { }
end
switch { }
end
switch { }
end
switch { }
end
switch { }
end
end
end
end
