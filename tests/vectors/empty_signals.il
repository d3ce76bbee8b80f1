module \m
  wire width 4 \a
  wire width 4 \b
  wire \y
  process \p
assign { } { }
switch 0'
case "" , { }
end
sync always
update 0' { }
  end
end
