module \b
end
module \a
end
attribute \x 1
module $c
end
