attribute \x { 1 }
