module \m
wire width 16 \a
connect \a 16'b0000010100111001
end
