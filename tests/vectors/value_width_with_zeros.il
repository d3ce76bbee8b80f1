module \m
parameter \p 0004'1x
end
