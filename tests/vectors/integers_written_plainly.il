autoidx 0017
module \m
parameter \a -0
parameter \b 000
parameter \c -0012
parameter \d 2147483647
parameter \e -2147483648
parameter \f 00000000000000000000000000001
wire width 004 offset -0 \w
connect \w [003:0] \w [3:000]
end
