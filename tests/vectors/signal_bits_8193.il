module \m
  wire width 2048 \a
  cell \t \c
    connect \A \a
    connect \B \a
    connect \C \a [0]
  end
  connect \a \a
end
