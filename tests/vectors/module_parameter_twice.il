module \m
parameter \p
parameter \p 1
end
