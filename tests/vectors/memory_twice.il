module \m
memory \a
memory \a
end
