module \m
connect { 2048' 1' } 1'0
end
