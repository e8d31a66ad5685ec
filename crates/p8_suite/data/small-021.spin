' a file
DAT
t       long 5
  byte 1, 2
  long 3
OBJ
VAR
  long a
  word pad9[100]
  word far
PUB main
  a := K
  a := 12e
  one(a)
CON
  K = 15
  K2 = K + 1
PRI one(n)
  return n + 1
