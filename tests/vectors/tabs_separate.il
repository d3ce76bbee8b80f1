module	\m
	wire		width 	2	\a	
end	
