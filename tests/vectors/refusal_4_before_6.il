module \m
process \p %
end
