memory \a
