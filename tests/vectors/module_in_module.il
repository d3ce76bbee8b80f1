module \m
module \n
end
end
