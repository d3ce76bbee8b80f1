module \m
memory signed \a
end
