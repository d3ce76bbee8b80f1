autoidx 0
