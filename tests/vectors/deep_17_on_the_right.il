module \m
connect { } { { { { { { { { { { { { { { { { { } } } } } } } } } } } } } } } } } 
end
