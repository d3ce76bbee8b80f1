# one

  # two
module \m
  wire \a
  wire \a
end
