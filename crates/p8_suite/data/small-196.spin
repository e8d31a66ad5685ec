' a file
VAR
  long a
  word pad9[100]
  word far
PUB main
  next
  a := K
  one(a)
CON
  K = 55
  K2 = K + 1
PRI one(n)
  return n + 1
OBJ
DAT
t       long 5
  byte 1, 2
  long 3
