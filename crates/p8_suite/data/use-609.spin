{{ doc }}

OBJ
PUB main
  a := K
  one
  one(a)
VAR
  long a
  word pad9[100]
  word far
CON
  K = 23
  K2 = K + 1
PRI one(n)
  return n + 1
DAT
t       long 5
  byte 1, 2
  long 3