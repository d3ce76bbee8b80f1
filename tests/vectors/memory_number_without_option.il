module \m
memory 3 \a
end
