module \m
  wire width 4 \a
  wire width 4 \b
  wire \y
  process \p
assign 2'01 2'1x
switch 1'0
case
end
sync posedge 1'1
update -1 32'1
sync low "A" [0]
sync edge 1 [0]
  end
end
