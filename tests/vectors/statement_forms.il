autoidx 1
attribute \x 1
attribute \y "s"
module \m
  parameter \p
  parameter \q 1
  parameter \r 2'01
  parameter \s "t"
  attribute \x 1
  wire width 2 offset 3 upto inout 4 signed \a
  attribute \x 2'xz
  memory width 2 size 3 offset 4 \ram
  attribute \x ""
  attribute \y -1
  cell $t $c
    parameter \p 1
    parameter signed \q 1'0
    parameter real \r "1.5"
    connect \A \a
    connect \B { }
  end
  connect \a 2'10
end
module \n
end
