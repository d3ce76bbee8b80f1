module \m
  cell \t \c
    connect \A { }
    connect \B { }
  end
  cell \t \d
    connect \A { }
  end
end
