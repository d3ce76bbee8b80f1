module \m
  wire \a
  process \p
    assign \a 1'0
    sync init
      update \a 1'1
  end
  connect \a 1'z
end
