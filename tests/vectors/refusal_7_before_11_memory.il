module \m
  memory \0
  memory \1
  memory \2
  memory \3
  memory \4
  memory \5
  memory \6
  memory \7
  memory \8
  memory \9
  memory \10
  memory \11
  memory \12
  memory \13
  memory \14
  memory \15
  memory \16
  memory \17
  memory \18
  memory \19
end
module \n
  memory \0
  memory \1
  memory \2
  memory \3
  memory \4
  memory \5
  memory \6
  memory \7
  memory \8
  memory \9
  memory \10
  memory \11
  memory width 0 \12
end
