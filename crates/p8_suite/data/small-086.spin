
VAR
  long a
  word pad9[100]
  word far
OBJ
DAT
t       long 5
  byte 1, 2
  long 3
PUB main
  a := K
  one(a)
  abort := 5
CON
  K = 48
  K2 = K + 1
PRI one(n)
  return n + 1
