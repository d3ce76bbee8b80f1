module \m
attribute \x 1
parameter \p 1
end
