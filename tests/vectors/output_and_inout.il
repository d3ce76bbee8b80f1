module \m
  wire output 1 inout 1 \a
end
