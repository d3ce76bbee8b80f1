module \m
end
end
