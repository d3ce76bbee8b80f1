module \m
memory \a
cell \t \a
end
end
