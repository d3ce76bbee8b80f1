module \m
memory width \a
end
