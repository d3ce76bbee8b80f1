module \m
  wire width 2048 \a
connect \a \a
connect \a \a
connect { } { }
end
