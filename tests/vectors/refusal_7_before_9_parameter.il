module \m
parameter \p 1
parameter \p 1'00
end
