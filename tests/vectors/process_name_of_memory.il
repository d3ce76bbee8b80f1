module \m
  memory \z
  process \z
  end
end
