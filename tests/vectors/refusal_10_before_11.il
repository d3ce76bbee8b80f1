module \m
cell \t \c
connect \A { { 2048' 1' } [0] 1'0 [1] }
end
end
