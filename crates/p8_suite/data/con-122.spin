CON
  k_1 = false
  q = true#x
VAR
  long a
DAT
t long 5
PUB main
  a := 1
