module \m
memory input 1 \a
end
