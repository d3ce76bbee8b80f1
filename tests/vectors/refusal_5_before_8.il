module \m
connect \none { 
end
