module \m
connect { 2048' 1' } { 1' 2048' }
end
