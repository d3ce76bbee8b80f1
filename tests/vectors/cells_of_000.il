module \ff
wire \reset
wire \enable
wire \clock
wire \d
wire \q
wire $0\q[0:0]
cell $adff $procdff$6
    parameter \ARST_POLARITY 1'1
    parameter \ARST_VALUE 1'0
    parameter \CLK_POLARITY 1'1
    parameter \WIDTH 1
    connect \ARST \reset
    connect \CLK \clock
    connect \D $0\q[0:0]
    connect \Q \q
end
cell $mux $procmux$3
    parameter \WIDTH 1
    connect \A \q
    connect \B \d
    connect \S \enable
    connect \Y $0\q[0:0]
end
end
