module \ff
wire \reset
wire \enable
wire \clock
wire \d
wire \q
wire $0\q[0:0]
process $proc$ff_with_en_and_async_reset.v:4$1
    assign $0\q[0:0] \q
    switch \enable
        case 1'1
            assign $0\q[0:0] \d
        case
    end
    sync posedge \clock
        update \q $0\q[0:0]
    sync high \reset
        update \q 1'0
end
end
