module \m
  wire width 4 \a
  wire width 4 \b
  wire \y
  process \p
switch \y
case
switch \a
end
switch \a
end
switch \a
end
switch \a
end
switch \a
end
switch \a
end
switch \a
end
switch \a
end
switch \a
end
switch \a
end
switch \a
end
switch \a
end
switch \a
end
switch \a
end
switch \a
end
switch \a
end
switch \a
end
switch \a
end
switch \a
end
switch \a
end
end
  end
end
