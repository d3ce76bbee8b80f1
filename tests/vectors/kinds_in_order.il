autoidx 3
attribute \t 1
module \m
wire \a
connect \a 1'0
attribute \k 1
cell \t \c
connect \A \a
parameter \P 1
connect \B \a
parameter \Q 2
end
parameter \p 1
attribute \k 2
memory \r
cell \t \d
end
attribute \k 3
attribute \l 4
wire \b
connect \b 1'1
memory \s
parameter \q
wire \z
end
