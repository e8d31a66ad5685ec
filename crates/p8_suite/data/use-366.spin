{{ doc }}

CON
  K = 7
  K2 = K + 1
OBJ
VAR
  long a
  word pad9[100]
  word far
DAT
t       long 5
  byte 1, 2
  long 3
PRI one(n)
  return n + 1
PUB main
  a := K
  longmove(1, 2, 3, 4)
  one(a)
