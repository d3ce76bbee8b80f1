module \m
connect
end
