module \m
  wire width 4 \a
  wire width 4 \b
  wire \y
  process \p
attribute \v 4'x1
attribute \i -0
attribute \s "\tq"
switch \a
end
  end
end
