{ two
  lines }
PRI one(n)
  return n + 1
PUB main
  a := K
  one(a)
VAR
  long a
  word pad9[100]
  word far
OBJ
DAT
t       long 5
  byte 1, 2
  long 3
CON
  K = 8
  K2 = K + 1
  K = 3