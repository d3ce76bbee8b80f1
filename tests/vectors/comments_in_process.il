module \m
  wire width 4 \a
  wire width 4 \b
  wire \y
  process \p
# first
  switch \y # {

	# x
case # 1'1
assign \y \y # ,
end
  end
end
