CON
  f0 = f5 << 65536
CON
  f1 = f5 #> 180
CON
  f2 = f3 | 4294967294
CON
  f3 = f5 - 11497
  f4 = f5 | 2147483647
  f5 = 255
PUB main
