module \m
parameter \p 2048'1
end
