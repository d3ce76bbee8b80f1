module \m
cell \t \c
connect \A
end
end
