module \m
cell \t \c
connect \A { }
connect \A \none
end
end
