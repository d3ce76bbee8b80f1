module \m
memory \a width 2
end
