' a file
OBJ
VAR
  long a
  word pad9[100]
  word far
PUB main
  a := K
  one(a)
DAT
t       long 5
  byte 1, 2
  long 3
  long nosuch
PRI one(n)
  return n + 1
CON
  K = 38
  K2 = K + 1