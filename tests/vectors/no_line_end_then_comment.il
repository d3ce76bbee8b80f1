module \m
end # x