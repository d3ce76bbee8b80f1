# the signals that 000 gives as examples, spelled as RTLIL text
module \signals
wire width 32 \mywire
cell \any \c
connect \A 1337
connect \B 16'0000010100111001
connect \C 1'1
connect \D 1'x
connect \E \mywire
connect \F \mywire [24]
connect \G \mywire [15:8]
connect \H { 16'10100111001 \mywire [15:8] }
end
end
