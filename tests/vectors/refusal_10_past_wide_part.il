module \m
cell \t \c
connect \A { 2048' 2048' } [4096]
end
end
