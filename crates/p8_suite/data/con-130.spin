CON
  k_1 = + negx <> 4066 & 16777_216 ^ 1 or ((240 => true) & (true <> 1))
  p2 = 3, q = p2#y
DAT
t long 5
VAR
  long a
PUB main
  a := 1
