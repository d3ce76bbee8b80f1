module \m
  wire width 2048 \a
cell \t \c
connect \0 \a [0]
connect \1 \a [1]
connect \2 \a [2]
connect \3 \a [3]
connect \4 \a [4]
connect \5 \a [5]
connect \6 \a [6]
connect \7 \a [7]
connect \8 \a [8]
connect \9 \a [9]
connect \10 \a [10]
connect \11 \a [11]
connect \12 \a [12]
connect \13 \a [13]
connect \14 \a [14]
connect \15 \a [15]
connect \16 \a [16]
connect \17 \a [17]
connect \18 \a [18]
connect \19 \a [19]
end
end
