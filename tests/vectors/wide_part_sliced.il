module \m
  wire width 4 \a
  wire width 4 \b
  wire \y
  process \p
assign \y { 2048' 2048' } [0]
  end
end
