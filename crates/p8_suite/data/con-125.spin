CON
  q = 1 / p2
  p2 = nosuch
PUB main
  a := 1
VAR
  long a
DAT
t long 5
