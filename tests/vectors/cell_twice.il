module \m
cell \t \a
end
cell \t \a
end
end
