module \m
  parameter \0
  parameter \1
  parameter \2
  parameter \3
  parameter \4
  parameter \5
  parameter \6
  parameter \7
  parameter \8
  parameter \9
  parameter \10
  parameter \11
  parameter \12
  parameter \13
  parameter \14
  parameter \15
  parameter \16
  parameter \17
  parameter \18
  parameter \19
  parameter \20
  parameter \21
  parameter \22
  parameter \23
  parameter \24
  parameter \25
  parameter \26
  parameter \27
  parameter \28
  parameter \29
  parameter \30
  parameter \31
  parameter \32
  parameter \33
  parameter \34
  parameter \35
  parameter \36
  parameter \37
  parameter \38
  parameter \39
  parameter \40
  parameter \41
  parameter \42
  parameter \43
  parameter \44
  parameter \45
  parameter \46
  parameter \47
  parameter \48
  parameter \49
  parameter \50
  parameter \51
  parameter \52
  parameter \53
  parameter \54
  parameter \55
  parameter \56
  parameter \57
  parameter \58
  parameter \59
  parameter \60
  parameter \61
  parameter \62
  parameter \63
  parameter \64
  parameter \65
  parameter \66
  parameter \67
  parameter \68
  parameter \69
  parameter \70
  parameter \71
  parameter \72
  parameter \73
  parameter \74
  parameter \75
  parameter \76
  parameter \77
  parameter \78
  parameter \79
  parameter \80
  parameter \81
  parameter \82
  parameter \83
  parameter \84
  parameter \85
  parameter \86
  parameter \87
  parameter \88
  parameter \89
  parameter \90
  parameter \91
  parameter \92
  parameter \93
  parameter \94
  parameter \95
  parameter \96
  parameter \97
  parameter \98
  parameter \99
  parameter \100
  parameter \101
  parameter \102
  parameter \103
  parameter \104
  parameter \105
  parameter \106
  parameter \107
  parameter \108
  parameter \109
  parameter \110
  parameter \111
  parameter \112
  parameter \113
  parameter \114
  parameter \115
  parameter \116
  parameter \117
  parameter \118
  parameter \119
  parameter \120
  parameter \121
  parameter \122
  parameter \123
  parameter \124
  parameter \125
  parameter \126
  parameter \127
  parameter \128
  parameter \129
  parameter \130
  parameter \131
  parameter \132
  parameter \133
  parameter \134
  parameter \135
  parameter \136
  parameter \137
  parameter \138
  parameter \139
  parameter \140
  parameter \141
  parameter \142
  parameter \143
  parameter \144
  parameter \145
  parameter \146
  parameter \147
  parameter \148
  parameter \149
  parameter \150
  parameter \151
  parameter \152
  parameter \153
  parameter \154
  parameter \155
  parameter \156
  parameter \157
  parameter \158
  parameter \159
  parameter \160
  parameter \161
  parameter \162
  parameter \163
  parameter \164
  parameter \165
  parameter \166
  parameter \167
  parameter \168
  parameter \169
  parameter \170
  parameter \171
  parameter \172
  parameter \173
  parameter \174
  parameter \175
  parameter \176
  parameter \177
  parameter \178
  parameter \179
  parameter \180
  parameter \181
  parameter \182
  parameter \183
  parameter \184
  parameter \185
  parameter \186
  parameter \187
  parameter \188
  parameter \189
  parameter \190
  parameter \191
  parameter \192
  parameter \193
  parameter \194
  parameter \195
  parameter \196
  parameter \197
  parameter \198
  parameter \199
  parameter \200
  parameter \201
  parameter \202
  parameter \203
  parameter \204
  parameter \205
  parameter \206
  parameter \207
  parameter \208
  parameter \209
  parameter \210
  parameter \211
  parameter \212
  parameter \213
  parameter \214
  parameter \215
  parameter \216
  parameter \217
  parameter \218
  parameter \219
  parameter \220
  parameter \221
  parameter \222
  parameter \223
  parameter \224
  parameter \225
  parameter \226
  parameter \227
  parameter \228
  parameter \229
  parameter \230
  parameter \231
  parameter \232
  parameter \233
  parameter \234
  parameter \235
  parameter \236
  parameter \237
  parameter \238
  parameter \239
  parameter \240
  parameter \241
  parameter \242
  parameter \243
  parameter \244
  parameter \245
  parameter \246
  parameter \247
  parameter \248
  parameter \249
  parameter \250
  parameter \251
  parameter \252
  parameter \253
  parameter \254
  parameter \255
  parameter \256
  parameter \257
  parameter \258
  parameter \259
  parameter \260
  parameter \261
  parameter \262
  parameter \263
  parameter \264
  parameter \265
  parameter \266
  parameter \267
  parameter \268
  parameter \269
  parameter \270
  parameter \271
  parameter \272
  parameter \273
  parameter \274
  parameter \275
  parameter \276
  parameter \277
  parameter \278
  parameter \279
  parameter \280
  parameter \281
  parameter \282
  parameter \283
  parameter \284
  parameter \285
  parameter \286
  parameter \287
  parameter \288
  parameter \289
  parameter \290
  parameter \291
  parameter \292
  parameter \293
  parameter \294
  parameter \295
  parameter \296
  parameter \297
  parameter \298
  parameter \299
  parameter \300
  parameter \301
  parameter \302
  parameter \303
  parameter \304
  parameter \305
  parameter \306
  parameter \307
  parameter \308
  parameter \309
  parameter \310
  parameter \311
  parameter \312
  parameter \313
  parameter \314
  parameter \315
  parameter \316
  parameter \317
  parameter \318
  parameter \319
  parameter \320
  parameter \321
  parameter \322
  parameter \323
  parameter \324
  parameter \325
  parameter \326
  parameter \327
  parameter \328
  parameter \329
  parameter \330
  parameter \331
  parameter \332
  parameter \333
  parameter \334
  parameter \335
  parameter \336
  parameter \337
  parameter \338
  parameter \339
  parameter \340
  parameter \341
  parameter \342
  parameter \343
  parameter \344
  parameter \345
  parameter \346
  parameter \347
  parameter \348
  parameter \349
  parameter \350
  parameter \351
  parameter \352
  parameter \353
  parameter \354
  parameter \355
  parameter \356
  parameter \357
  parameter \358
  parameter \359
  parameter \360
  parameter \361
  parameter \362
  parameter \363
  parameter \364
  parameter \365
  parameter \366
  parameter \367
  parameter \368
  parameter \369
  parameter \370
  parameter \371
  parameter \372
  parameter \373
  parameter \374
  parameter \375
  parameter \376
  parameter \377
  parameter \378
  parameter \379
  parameter \380
  parameter \381
  parameter \382
  parameter \383
  parameter \384
  parameter \385
  parameter \386
  parameter \387
  parameter \388
  parameter \389
  parameter \390
  parameter \391
  parameter \392
  parameter \393
  parameter \394
  parameter \395
  parameter \396
  parameter \397
  parameter \398
  parameter \399
  parameter \400
  parameter \401
  parameter \402
  parameter \403
  parameter \404
  parameter \405
  parameter \406
  parameter \407
  parameter \408
  parameter \409
  parameter \410
  parameter \411
  parameter \412
  parameter \413
  parameter \414
  parameter \415
  parameter \416
  parameter \417
  parameter \418
  parameter \419
  parameter \420
  parameter \421
  parameter \422
  parameter \423
  parameter \424
  parameter \425
  parameter \426
  parameter \427
  parameter \428
  parameter \429
  parameter \430
  parameter \431
  parameter \432
  parameter \433
  parameter \434
  parameter \435
  parameter \436
  parameter \437
  parameter \438
  parameter \439
  parameter \440
  parameter \441
  parameter \442
  parameter \443
  parameter \444
  parameter \445
  parameter \446
  parameter \447
  parameter \448
  parameter \449
  parameter \450
  parameter \451
  parameter \452
  parameter \453
  parameter \454
  parameter \455
  parameter \456
  parameter \457
  parameter \458
  parameter \459
  parameter \460
  parameter \461
  parameter \462
  parameter \463
  parameter \464
  parameter \465
  parameter \466
  parameter \467
  parameter \468
  parameter \469
  parameter \470
  parameter \471
  parameter \472
  parameter \473
  parameter \474
  parameter \475
  parameter \476
  parameter \477
  parameter \478
  parameter \479
  parameter \480
  parameter \481
  parameter \482
  parameter \483
  parameter \484
  parameter \485
  parameter \486
  parameter \487
  parameter \488
  parameter \489
  parameter \490
  parameter \491
  parameter \492
  parameter \493
  parameter \494
  parameter \495
  parameter \496
  parameter \497
  parameter \498
  parameter \499
  parameter \500
  parameter \501
  parameter \502
  parameter \503
  parameter \504
  parameter \505
  parameter \506
  parameter \507
  parameter \508
  parameter \509
  parameter \510
  parameter \511
  parameter \512
  parameter \513
  parameter \514
  parameter \515
  parameter \516
  parameter \517
  parameter \518
  parameter \519
  parameter \520
  parameter \521
  parameter \522
  parameter \523
  parameter \524
  parameter \525
  parameter \526
  parameter \527
  parameter \528
  parameter \529
  parameter \530
  parameter \531
  parameter \532
  parameter \533
  parameter \534
  parameter \535
  parameter \536
  parameter \537
  parameter \538
  parameter \539
  parameter \540
  parameter \541
  parameter \542
  parameter \543
  parameter \544
  parameter \545
  parameter \546
  parameter \547
  parameter \548
  parameter \549
  parameter \550
  parameter \551
  parameter \552
  parameter \553
  parameter \554
  parameter \555
  parameter \556
  parameter \557
  parameter \558
  parameter \559
  parameter \560
  parameter \561
  parameter \562
  parameter \563
  parameter \564
  parameter \565
  parameter \566
  parameter \567
  parameter \568
  parameter \569
  parameter \570
  parameter \571
  parameter \572
  parameter \573
  parameter \574
  parameter \575
  parameter \576
  parameter \577
  parameter \578
  parameter \579
  parameter \580
  parameter \581
  parameter \582
  parameter \583
  parameter \584
  parameter \585
  parameter \586
  parameter \587
  parameter \588
  parameter \589
  parameter \590
  parameter \591
  parameter \592
  parameter \593
  parameter \594
  parameter \595
  parameter \596
  parameter \597
  parameter \598
  parameter \599
  cell \t \c
    parameter \0 1
    parameter \1 1
    parameter \2 1
    parameter \3 1
    parameter \4 1
    parameter \5 1
    parameter \6 1
    parameter \7 1
    parameter \8 1
    parameter \9 1
    parameter \10 1
    parameter \11 1
    parameter \12 1
    parameter \13 1
    parameter \14 1
    parameter \15 1
    parameter \16 1
    parameter \17 1
    parameter \18 1
    parameter \19 1
    parameter \20 1
    parameter \21 1
    parameter \22 1
    parameter \23 1
    parameter \24 1
    parameter \25 1
    parameter \26 1
    parameter \27 1
    parameter \28 1
    parameter \29 1
    parameter \30 1
    parameter \31 1
    parameter \32 1
    parameter \33 1
    parameter \34 1
    parameter \35 1
    parameter \36 1
    parameter \37 1
    parameter \38 1
    parameter \39 1
    parameter \40 1
    parameter \41 1
    parameter \42 1
    parameter \43 1
    parameter \44 1
    parameter \45 1
    parameter \46 1
    parameter \47 1
    parameter \48 1
    parameter \49 1
    parameter \50 1
    parameter \51 1
    parameter \52 1
    parameter \53 1
    parameter \54 1
    parameter \55 1
    parameter \56 1
    parameter \57 1
    parameter \58 1
    parameter \59 1
    parameter \60 1
    parameter \61 1
    parameter \62 1
    parameter \63 1
    parameter \64 1
    parameter \65 1
    parameter \66 1
    parameter \67 1
    parameter \68 1
    parameter \69 1
    parameter \70 1
    parameter \71 1
    parameter \72 1
    parameter \73 1
    parameter \74 1
    parameter \75 1
    parameter \76 1
    parameter \77 1
    parameter \78 1
    parameter \79 1
    parameter \80 1
    parameter \81 1
    parameter \82 1
    parameter \83 1
    parameter \84 1
    parameter \85 1
    parameter \86 1
    parameter \87 1
    parameter \88 1
    parameter \89 1
    parameter \90 1
    parameter \91 1
    parameter \92 1
    parameter \93 1
    parameter \94 1
    parameter \95 1
    parameter \96 1
    parameter \97 1
    parameter \98 1
    parameter \99 1
    parameter \100 1
    parameter \101 1
    parameter \102 1
    parameter \103 1
    parameter \104 1
    parameter \105 1
    parameter \106 1
    parameter \107 1
    parameter \108 1
    parameter \109 1
    parameter \110 1
    parameter \111 1
    parameter \112 1
    parameter \113 1
    parameter \114 1
    parameter \115 1
    parameter \116 1
    parameter \117 1
    parameter \118 1
    parameter \119 1
    parameter \120 1
    parameter \121 1
    parameter \122 1
    parameter \123 1
    parameter \124 1
    parameter \125 1
    parameter \126 1
    parameter \127 1
    parameter \128 1
    parameter \129 1
    parameter \130 1
    parameter \131 1
    parameter \132 1
    parameter \133 1
    parameter \134 1
    parameter \135 1
    parameter \136 1
    parameter \137 1
    parameter \138 1
    parameter \139 1
    parameter \140 1
    parameter \141 1
    parameter \142 1
    parameter \143 1
    parameter \144 1
    parameter \145 1
    parameter \146 1
    parameter \147 1
    parameter \148 1
    parameter \149 1
    parameter \150 1
    parameter \151 1
    parameter \152 1
    parameter \153 1
    parameter \154 1
    parameter \155 1
    parameter \156 1
    parameter \157 1
    parameter \158 1
    parameter \159 1
    parameter \160 1
    parameter \161 1
    parameter \162 1
    parameter \163 1
    parameter \164 1
    parameter \165 1
    parameter \166 1
    parameter \167 1
    parameter \168 1
    parameter \169 1
    parameter \170 1
    parameter \171 1
    parameter \172 1
    parameter \173 1
    parameter \174 1
    parameter \175 1
    parameter \176 1
    parameter \177 1
    parameter \178 1
    parameter \179 1
    parameter \180 1
    parameter \181 1
    parameter \182 1
    parameter \183 1
    parameter \184 1
    parameter \185 1
    parameter \186 1
    parameter \187 1
    parameter \188 1
    parameter \189 1
    parameter \190 1
    parameter \191 1
    parameter \192 1
    parameter \193 1
    parameter \194 1
    parameter \195 1
    parameter \196 1
    parameter \197 1
    parameter \198 1
    parameter \199 1
    parameter \200 1
    parameter \201 1
    parameter \202 1
    parameter \203 1
    parameter \204 1
    parameter \205 1
    parameter \206 1
    parameter \207 1
    parameter \208 1
    parameter \209 1
    parameter \210 1
    parameter \211 1
    parameter \212 1
    parameter \213 1
    parameter \214 1
    parameter \215 1
    parameter \216 1
    parameter \217 1
    parameter \218 1
    parameter \219 1
    parameter \220 1
    parameter \221 1
    parameter \222 1
    parameter \223 1
    parameter \224 1
    parameter \225 1
    parameter \226 1
    parameter \227 1
    parameter \228 1
    parameter \229 1
    parameter \230 1
    parameter \231 1
    parameter \232 1
    parameter \233 1
    parameter \234 1
    parameter \235 1
    parameter \236 1
    parameter \237 1
    parameter \238 1
    parameter \239 1
    parameter \240 1
    parameter \241 1
    parameter \242 1
    parameter \243 1
    parameter \244 1
    parameter \245 1
    parameter \246 1
    parameter \247 1
    parameter \248 1
    parameter \249 1
    parameter \250 1
    parameter \251 1
    parameter \252 1
    parameter \253 1
    parameter \254 1
    parameter \255 1
    parameter \256 1
    parameter \257 1
    parameter \258 1
    parameter \259 1
    parameter \260 1
    parameter \261 1
    parameter \262 1
    parameter \263 1
    parameter \264 1
    parameter \265 1
    parameter \266 1
    parameter \267 1
    parameter \268 1
    parameter \269 1
    parameter \270 1
    parameter \271 1
    parameter \272 1
    parameter \273 1
    parameter \274 1
    parameter \275 1
    parameter \276 1
    parameter \277 1
    parameter \278 1
    parameter \279 1
    parameter \280 1
    parameter \281 1
    parameter \282 1
    parameter \283 1
    parameter \284 1
    parameter \285 1
    parameter \286 1
    parameter \287 1
    parameter \288 1
    parameter \289 1
    parameter \290 1
    parameter \291 1
    parameter \292 1
    parameter \293 1
    parameter \294 1
    parameter \295 1
    parameter \296 1
    parameter \297 1
    parameter \298 1
    parameter \299 1
    parameter \300 1
    parameter \301 1
    parameter \302 1
    parameter \303 1
    parameter \304 1
    parameter \305 1
    parameter \306 1
    parameter \307 1
    parameter \308 1
    parameter \309 1
    parameter \310 1
    parameter \311 1
    parameter \312 1
    parameter \313 1
    parameter \314 1
    parameter \315 1
    parameter \316 1
    parameter \317 1
    parameter \318 1
    parameter \319 1
    parameter \320 1
    parameter \321 1
    parameter \322 1
    parameter \323 1
    parameter \324 1
    parameter \325 1
    parameter \326 1
    parameter \327 1
    parameter \328 1
    parameter \329 1
    parameter \330 1
    parameter \331 1
    parameter \332 1
    parameter \333 1
    parameter \334 1
    parameter \335 1
    parameter \336 1
    parameter \337 1
    parameter \338 1
    parameter \339 1
    parameter \340 1
    parameter \341 1
    parameter \342 1
    parameter \343 1
    parameter \344 1
    parameter \345 1
    parameter \346 1
    parameter \347 1
    parameter \348 1
    parameter \349 1
    parameter \350 1
    parameter \351 1
    parameter \352 1
    parameter \353 1
    parameter \354 1
    parameter \355 1
    parameter \356 1
    parameter \357 1
    parameter \358 1
    parameter \359 1
    parameter \360 1
    parameter \361 1
    parameter \362 1
    parameter \363 1
    parameter \364 1
    parameter \365 1
    parameter \366 1
    parameter \367 1
    parameter \368 1
    parameter \369 1
    parameter \370 1
    parameter \371 1
    parameter \372 1
    parameter \373 1
    parameter \374 1
    parameter \375 1
    parameter \376 1
    parameter \377 1
    parameter \378 1
    parameter \379 1
    parameter \380 1
    parameter \381 1
    parameter \382 1
    parameter \383 1
    parameter \384 1
    parameter \385 1
    parameter \386 1
    parameter \387 1
    parameter \388 1
    parameter \389 1
    parameter \390 1
    parameter \391 1
    parameter \392 1
    parameter \393 1
    parameter \394 1
    parameter \395 1
    parameter \396 1
    parameter \397 1
    parameter \398 1
    parameter \399 1
    parameter \400 1
    parameter \401 1
    parameter \402 1
    parameter \403 1
    parameter \404 1
    parameter \405 1
    parameter \406 1
    parameter \407 1
    parameter \408 1
    parameter \409 1
    parameter \410 1
    parameter \411 1
    parameter \412 1
    parameter \413 1
    parameter \414 1
    parameter \415 1
    parameter \416 1
    parameter \417 1
    parameter \418 1
    parameter \419 1
    parameter \420 1
    parameter \421 1
    parameter \422 1
    parameter \423 1
    parameter \424 1
  end
end
