module \m
process \p \q
end
end
