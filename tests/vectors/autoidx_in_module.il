module \m
autoidx 1
end
