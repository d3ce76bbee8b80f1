autoidx
