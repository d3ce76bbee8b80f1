

 	 
module \m

  
	
end

 
