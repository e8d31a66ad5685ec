
CON
  K = 59
  K2 = K + 1
VAR
  long a
  word pad9[100]
  word far
PRI one(n)
  return n + 1
OBJ
DAT
:mov nop
t       long 5
  byte 1, 2
  long 3
PUB main
  a := K
  one(a)
