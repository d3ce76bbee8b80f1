module \m
end end %
end
