module \m
process
end
end
