module \m
  parameter \p 18446744073709551617'0
end
