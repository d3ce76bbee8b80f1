module \m
  process \z
  end
  memory \z
end
