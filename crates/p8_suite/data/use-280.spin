{{ doc }}

DAT
t       long 5
  byte 1, 2
  long 3
CON
  K = 12
  K2 = K + 1
PRI one(n)
  return n + 1
PUB q1 | x, x
VAR
  long a
  word pad9[100]
  word far
PUB main
  a := K
  one(a)
OBJ
