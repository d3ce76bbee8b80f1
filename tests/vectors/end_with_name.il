module \m
end \m
