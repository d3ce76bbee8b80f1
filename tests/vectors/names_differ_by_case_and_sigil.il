module \m
  wire \a
  wire \A
  wire $a
  wire \m
end
