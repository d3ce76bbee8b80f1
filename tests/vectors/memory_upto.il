module \m
memory upto \a
end
