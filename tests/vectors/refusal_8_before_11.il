module \m
cell \t \c
connect \A { 2048' 1' \none }
end
end
