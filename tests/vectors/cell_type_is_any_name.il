module \m
  cell \m \m
  end
  cell \none $none
  end
  cell $nosuchcell \none
  end
end
