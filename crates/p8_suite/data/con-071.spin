PUB main
CON
  f0 = f2 #> $7F
  f1 = f2 << $1000000
  f2 = f3 - 37_402
  f3 = $7F
