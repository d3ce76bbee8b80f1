autoidx 5#x
module \m #x
parameter \p 1'0#x
parameter \q "s"#x
parameter \r 3#x
connect { }{ }#x
end#x
