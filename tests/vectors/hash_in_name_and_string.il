module \m
  parameter \p# "a # b"
  wire \a#b
end
