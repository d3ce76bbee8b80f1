# first

 	
autoidx 9
