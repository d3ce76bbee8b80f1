cell \t \a
