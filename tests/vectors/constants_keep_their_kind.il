attribute \a 1
attribute \b 1'1
attribute \c "1"
attribute \d 32'00000000000000000000000000000001
attribute \e ""
attribute \f 0'
module \m
  parameter \a
  parameter \b 0
  parameter \c 1'0
  parameter \d "0"
end
