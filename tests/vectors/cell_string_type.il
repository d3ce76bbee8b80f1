module \m
cell "t" \u
end
end
