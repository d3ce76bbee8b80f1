module \m
  wire signed upto signed \a
end
