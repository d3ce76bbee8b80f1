module \m
attribute \x 1
end
