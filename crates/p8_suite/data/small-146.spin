
DAT
t       long 5
  byte 1, 2
  long 3
PRI one(n)
  return n + 1
VAR
  long a
  word pad9[100]
  word far
CON
  K = 25
  K2 = K + 1
OBJ
PUB main
  else
  a := K
  one(a)