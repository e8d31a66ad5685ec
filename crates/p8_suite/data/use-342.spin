{{ doc }}

PRI one(n)
  return n + 1
PUB main
  t
  a := K
  one(a)
DAT
t       long 5
  byte 1, 2
  long 3
OBJ
CON
  K = 46
  K2 = K + 1
VAR
  long a
  word pad9[100]
  word far