module \m
assign switch case sync global init always low high posedge negedge edge update process
end
