module \m
  wire \a
  memory \b
end
module \n
  wire \b
  memory \a
end
