module \m
cell \t \c
connect \A { }
connect \A 1'0 [1]
end
end
