module \m
connect 4' 4'x1
end
