PRI one(n)
  return n + 1
CON
  K = 45
  K2 = K + 1
  q1 = 1.5x
OBJ
DAT
t       long 5
  byte 1, 2
  long 3
VAR
  long a
  word pad9[100]
  word far
PUB main
  a := K
  one(a)
