module \m
cell \t \a
end
connect \a \a
end
