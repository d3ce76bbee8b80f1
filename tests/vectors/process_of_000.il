module \ff
wire \reset
wire \enable
wire \clock
wire \d
wire \q
wire $0\q[0:0]
process $proc$ff_with_en_and_async_reset.v:4$1
    assign $0\q[0:0] \q
    switch \reset
        case 1'1
            assign $0\q[0:0] 1'0
        case
            switch \enable
                case 1'1
                    assign $0\q[0:0] \d
                case
            end
    end
    sync posedge \clock
        update \q $0\q[0:0]
    sync posedge \reset
        update \q $0\q[0:0]
end
end
