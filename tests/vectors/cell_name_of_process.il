module \m
  process \z
  end
  cell \t \z
  end
end
