CON
  q = 1 / z0
  z0 = 0
PUB main
  a := 1
VAR
  long a
DAT
t long 5
