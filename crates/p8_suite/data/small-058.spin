' a file
PRI one(n)
  return n + 1
PUB main
  string("a")
  a := K
  one(a)
VAR
  long a
  word pad9[100]
  word far
OBJ
DAT
t       long 5
  byte 1, 2
  long 3
CON
  K = 12
  K2 = K + 1
