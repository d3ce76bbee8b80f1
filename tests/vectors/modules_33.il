module \0
end
module \1
end
module \2
end
module \3
end
module \4
end
module \5
end
module \6
end
module \7
end
module \8
end
module \9
end
module \10
end
module \11
end
module \12
end
module \13
end
module \14
end
module \15
end
module \16
end
module \17
end
module \18
end
module \19
end
module \20
end
module \21
end
module \22
end
module \23
end
module \24
end
module \25
end
module \26
end
module \27
end
module \28
end
module \29
end
module \30
end
module \31
end
module \32
end
