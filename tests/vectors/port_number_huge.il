module \m
  wire inout 99999999999999999999 \a
end
