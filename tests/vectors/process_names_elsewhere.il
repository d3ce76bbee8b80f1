module \m
  process \m
  end
  process $m
  end
end
module \n
  process \m
  end
end
