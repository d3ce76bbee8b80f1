module \m
process \0
end
process \1
end
process \2
end
process \3
end
process \4
end
process \5
end
process \6
end
process \7
end
process \8
end
process \9
end
process \10
end
process \11
end
process \12
end
process \13
end
process \14
end
process \15
end
process \16
end
process \17
end
process \18
end
process \19
end
process \20
end
process \21
end
process \22
end
process \23
end
process \24
end
process \25
end
process \26
end
process \27
end
process \28
end
process \29
end
process \30
end
process \31
end
process \32
end
process \33
end
process \34
end
process \35
end
process \36
end
process \37
end
process \38
end
process \39
end
process \40
end
process \41
end
process \42
end
process \43
end
process \44
end
process \45
end
process \46
end
process \47
end
process \48
end
process \49
end
process \50
end
process \51
end
process \52
end
process \53
end
process \54
end
process \55
end
process \56
end
process \57
end
process \58
end
process \59
end
process \60
end
process \61
end
process \62
end
process \63
end
end
