{{ doc }}

OBJ
CON
  K = 32
  K2 = K + 1
PRI one(n)
  return n + 1
VAR
  long a
  word pad9[100]
  word far
DAT
t       long 5
  byte 1, 2
  long 3
PUB main
  - -a
  a := K
  one(a)
