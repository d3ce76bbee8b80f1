module \m
parameter \p 4'x
parameter \q 4'z1
end
