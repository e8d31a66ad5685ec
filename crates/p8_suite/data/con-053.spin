PUB main
CON
  f0 = f1 - %1
CON
  f1 = f2 #> $7E8F
CON
  f2 = 209
