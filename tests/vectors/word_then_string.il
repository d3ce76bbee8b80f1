module \m
  wire"a"
end
