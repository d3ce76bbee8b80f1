attribute \x 1
attribute \y 1
attribute \x 2
module \m
end
