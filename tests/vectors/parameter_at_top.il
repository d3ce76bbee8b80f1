parameter \p 1
