attribute \x 1
module \m
  attribute \x 1
  wire \a
  attribute \x 2
  memory \b
  attribute \x 3
  cell \t \c
  end
end
attribute \x 1
module \n
end
