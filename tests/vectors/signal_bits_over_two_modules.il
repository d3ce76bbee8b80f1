module \m
  wire width 2048 \a
  connect \a \a
end
module \n
  wire width 2048 \a
  connect \a \a
  cell \t \c
    connect \A 1'0
  end
end
