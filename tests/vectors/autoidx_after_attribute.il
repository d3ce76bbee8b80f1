attribute \x 1
autoidx 1
module \m
end
