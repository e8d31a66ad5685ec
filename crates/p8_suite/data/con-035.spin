CON
  f0 = f2 << 10
CON
  f1 = f2 - $7F
  f2 = f3 << 3
  f3 = f4 + 1
  f4 = f5 << 2349143279
  f5 = 0
PUB main
