module \m
wire width 4 \a
connect \a [ 3 : 2 ] { \a [ 1 ] \a	[ 0 ] }
end
