module \m
parameter \p 1 2
end
