module \m \n
