module \m
  parameter \p 6'01xzm-
  connect 6'01xzm- 6'-mzx10
end
