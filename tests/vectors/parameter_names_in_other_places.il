module \m
  parameter \p 1
  wire \p
  cell \p \c
    parameter \p 1
    connect \p \p
  end
  cell \p \d
    parameter \p 1
    connect \p \p
  end
end
module \n
  parameter \p 1
end
