module \m
  wire width 4 \a
  wire width 4 \b
  wire \y
  memory \r
  process \p
assign \r \y
  end
end
