wire \a
