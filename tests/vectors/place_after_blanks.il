module \m
 	  wire %
end
