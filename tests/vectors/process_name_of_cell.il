module \m
  cell \t \z
  end
  process \z
  end
end
