module \m
cell \t \a
end
memory \a
end
