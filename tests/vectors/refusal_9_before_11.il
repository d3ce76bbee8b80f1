module \m
cell \t \c
connect \A { }
connect \A { 2048' 1' } [0]
end
end
