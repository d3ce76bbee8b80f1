module \m
end
module \n
end
module \m
end
