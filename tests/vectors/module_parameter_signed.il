module \m
parameter signed \p 1
end
