autoidx 1
autoidx 1
