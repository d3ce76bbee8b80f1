module \m
memory
end
