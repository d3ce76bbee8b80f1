connect { } { }
