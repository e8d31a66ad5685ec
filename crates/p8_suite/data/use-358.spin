{ two
  lines }
DAT
t       long 5
  byte 1, 2
  long 3
PRI one(n)
  return n + 1
CON
  K = 32
  K2 = K + 1
OBJ
VAR
  long a
  word pad9[100]
  word far
PUB main
  a := K
  one(a)
  bytefill(1, 2)
