autoidx -5
module \m
end
