module \m
parameter \p \q
end
