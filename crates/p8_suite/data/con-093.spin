CON
  q = 1 / p2
  p2 = nosuch
VAR
  long a
PUB main
  a := 1
DAT
t long 5
