module \m
wire width 4 \a
wire \y
connect{\y }{\a }[3:0][2:1][0]
connect "A"[0]1[0]
connect 1'0{\a [ 3 ] }
end
