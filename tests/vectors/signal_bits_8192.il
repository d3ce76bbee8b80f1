module \m
  wire width 2048 \a
  cell \t \c
    connect \A \a
    connect \B \a [2046:0]
    connect \C \a [0]
  end
  connect \a \a
end
