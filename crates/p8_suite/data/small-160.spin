{{ doc }}

OBJ
DAT
t       long 5
  byte 1, 2
  long 3
CON
  q1 = - - - - - - - - - - - - - - - - - - - - - - - - - - - - - - - - - - - - - - - - - - - - - - - - - - - - - - - - - - - - - - - - 1
  K = 57
  K2 = K + 1
PRI one(n)
  return n + 1
VAR
  long a
  word pad9[100]
  word far
PUB main
  a := K
  one(a)