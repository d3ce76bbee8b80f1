autoidx 1 2
