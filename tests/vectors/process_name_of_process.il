module \m
  process \z
  end
  process \z
  end
end
