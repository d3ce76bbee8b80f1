module \m
  cell \t \0
  end
  cell \t \1
  end
  cell \t \2
  end
  cell \t \3
  end
  cell \t \4
  end
  cell \t \5
  end
  cell \t \6
  end
  cell \t \7
  end
  cell \t \8
  end
  cell \t \9
  end
  cell \t \10
  end
  cell \t \11
  end
  cell \t \12
  end
  cell \t \13
  end
  cell \t \14
  end
  cell \t \15
  end
  cell \t \16
  end
  cell \t \17
  end
  cell \t \18
  end
  cell \t \19
  end
  cell \t \20
  end
  cell \t \21
  end
  cell \t \22
  end
  cell \t \23
  end
  cell \t \24
  end
  cell \t \25
  end
  cell \t \26
  end
  cell \t \27
  end
  cell \t \28
  end
  cell \t \29
  end
  cell \t \30
  end
  cell \t \31
  end
  cell \t \32
  end
  cell \t \33
  end
  cell \t \34
  end
  cell \t \35
  end
  cell \t \36
  end
  cell \t \37
  end
  cell \t \38
  end
  cell \t \39
  end
  cell \t \40
  end
  cell \t \41
  end
  cell \t \42
  end
  cell \t \43
  end
  cell \t \44
  end
  cell \t \45
  end
  cell \t \46
  end
  cell \t \47
  end
  cell \t \48
  end
  cell \t \49
  end
  cell \t \50
  end
  cell \t \51
  end
  cell \t \52
  end
  cell \t \53
  end
  cell \t \54
  end
  cell \t \55
  end
  cell \t \56
  end
  cell \t \57
  end
  cell \t \58
  end
  cell \t \59
  end
  cell \t \60
  end
  cell \t \61
  end
  cell \t \62
  end
  cell \t \63
  end
  cell \t \64
  end
  cell \t \65
  end
  cell \t \66
  end
  cell \t \67
  end
  cell \t \68
  end
  cell \t \69
  end
  cell \t \70
  end
  cell \t \71
  end
  cell \t \72
  end
  cell \t \73
  end
  cell \t \74
  end
  cell \t \75
  end
  cell \t \76
  end
  cell \t \77
  end
  cell \t \78
  end
  cell \t \79
  end
  cell \t \80
  end
  cell \t \81
  end
  cell \t \82
  end
  cell \t \83
  end
  cell \t \84
  end
  cell \t \85
  end
  cell \t \86
  end
  cell \t \87
  end
  cell \t \88
  end
  cell \t \89
  end
  cell \t \90
  end
  cell \t \91
  end
  cell \t \92
  end
  cell \t \93
  end
  cell \t \94
  end
  cell \t \95
  end
  cell \t \96
  end
  cell \t \97
  end
  cell \t \98
  end
  cell \t \99
  end
  cell \t \100
  end
  cell \t \101
  end
  cell \t \102
  end
  cell \t \103
  end
  cell \t \104
  end
  cell \t \105
  end
  cell \t \106
  end
  cell \t \107
  end
  cell \t \108
  end
  cell \t \109
  end
  cell \t \110
  end
  cell \t \111
  end
  cell \t \112
  end
  cell \t \113
  end
  cell \t \114
  end
  cell \t \115
  end
  cell \t \116
  end
  cell \t \117
  end
  cell \t \118
  end
  cell \t \119
  end
  cell \t \120
  end
  cell \t \121
  end
  cell \t \122
  end
  cell \t \123
  end
  cell \t \124
  end
  cell \t \125
  end
  cell \t \126
  end
  cell \t \127
  end
  cell \t \128
  end
  cell \t \129
  end
  cell \t \130
  end
  cell \t \131
  end
  cell \t \132
  end
  cell \t \133
  end
  cell \t \134
  end
  cell \t \135
  end
  cell \t \136
  end
  cell \t \137
  end
  cell \t \138
  end
  cell \t \139
  end
  cell \t \140
  end
  cell \t \141
  end
  cell \t \142
  end
  cell \t \143
  end
  cell \t \144
  end
  cell \t \145
  end
  cell \t \146
  end
  cell \t \147
  end
  cell \t \148
  end
  cell \t \149
  end
  cell \t \150
  end
  cell \t \151
  end
  cell \t \152
  end
  cell \t \153
  end
  cell \t \154
  end
  cell \t \155
  end
  cell \t \156
  end
  cell \t \157
  end
  cell \t \158
  end
  cell \t \159
  end
  cell \t \160
  end
  cell \t \161
  end
  cell \t \162
  end
  cell \t \163
  end
  cell \t \164
  end
  cell \t \165
  end
  cell \t \166
  end
  cell \t \167
  end
  cell \t \168
  end
  cell \t \169
  end
  cell \t \170
  end
  cell \t \171
  end
  cell \t \172
  end
  cell \t \173
  end
  cell \t \174
  end
  cell \t \175
  end
  cell \t \176
  end
  cell \t \177
  end
  cell \t \178
  end
  cell \t \179
  end
  cell \t \180
  end
  cell \t \181
  end
  cell \t \182
  end
  cell \t \183
  end
  cell \t \184
  end
  cell \t \185
  end
  cell \t \186
  end
  cell \t \187
  end
  cell \t \188
  end
  cell \t \189
  end
  cell \t \190
  end
  cell \t \191
  end
  cell \t \192
  end
  cell \t \193
  end
  cell \t \194
  end
  cell \t \195
  end
  cell \t \196
  end
  cell \t \197
  end
  cell \t \198
  end
  cell \t \199
  end
  cell \t \200
  end
  cell \t \201
  end
  cell \t \202
  end
  cell \t \203
  end
  cell \t \204
  end
  cell \t \205
  end
  cell \t \206
  end
  cell \t \207
  end
  cell \t \208
  end
  cell \t \209
  end
  cell \t \210
  end
  cell \t \211
  end
  cell \t \212
  end
  cell \t \213
  end
  cell \t \214
  end
  cell \t \215
  end
  cell \t \216
  end
  cell \t \217
  end
  cell \t \218
  end
  cell \t \219
  end
  cell \t \220
  end
  cell \t \221
  end
  cell \t \222
  end
  cell \t \223
  end
  cell \t \224
  end
  cell \t \225
  end
  cell \t \226
  end
  cell \t \227
  end
  cell \t \228
  end
  cell \t \229
  end
  cell \t \230
  end
  cell \t \231
  end
  cell \t \232
  end
  cell \t \233
  end
  cell \t \234
  end
  cell \t \235
  end
  cell \t \236
  end
  cell \t \237
  end
  cell \t \238
  end
  cell \t \239
  end
  cell \t \240
  end
  cell \t \241
  end
  cell \t \242
  end
  cell \t \243
  end
  cell \t \244
  end
  cell \t \245
  end
  cell \t \246
  end
  cell \t \247
  end
  cell \t \248
  end
  cell \t \249
  end
  cell \t \250
  end
  cell \t \251
  end
  cell \t \252
  end
  cell \t \253
  end
  cell \t \254
  end
  cell \t \255
  end
end
