module \m
parameter real \p "1"
end
