VAR
  long a
  word pad9[100]
  word far
DAT
t       long 5
  byte 1, 2
  long 3
  nop wz
CON
  K = 11
  K2 = K + 1
OBJ
  kid : "kid"
PRI one(n)
  return n + 1
PUB main
  a := K
  one(a)
  kid.set(1)
