module \m
  !
end
