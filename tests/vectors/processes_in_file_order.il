module \m
  wire \a
  process \q
  end
  connect \a \a
  attribute \x 1
  process \p
    sync init
  end
  cell \t \c
  end
  memory \r
end
