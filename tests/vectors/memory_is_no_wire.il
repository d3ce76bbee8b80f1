module \m
memory \a
connect \a \a
end
