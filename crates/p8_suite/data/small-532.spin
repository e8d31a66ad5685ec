' a file
PUB main
  a := K
  one(a)
VAR
  long a
  word pad9[100]
  word far
DAT
  long 1 + byte[5]
t       long 5
  byte 1, 2
  long 3
PRI one(n)
  return n + 1
OBJ
CON
  K = 41
  K2 = K + 1
