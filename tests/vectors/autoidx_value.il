autoidx 4'1
