module \m
memory width 1 size 0 offset 0 \a
memory \b
memory offset -1 width 1 \c
end
