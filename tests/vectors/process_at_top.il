process \p
