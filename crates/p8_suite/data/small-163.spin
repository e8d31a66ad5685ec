{{ doc }}

PRI one(n)
  return n + 1
DAT
t       long 5
  byte 1, 2
  long ! ! ! ! ! ! ! ! ! ! ! ! ! ! ! ! ! ! ! ! ! ! ! ! ! ! ! ! ! ! ! ! ! ! ! ! ! ! ! ! ! ! ! ! ! ! ! ! ! ! ! ! ! ! ! ! ! ! ! ! ! ! ! ! t
  long 3
PUB main
  a := K
  one(a)
VAR
  long a
  word pad9[100]
  word far
OBJ
CON
  K = 19
  K2 = K + 1