module \m
  wire \z
  process \z
  end
end
