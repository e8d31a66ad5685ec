' a file
PUB main
  a := 1..2
  a := K
  one(a)
OBJ
VAR
  long a
  word pad9[100]
  word far
DAT
t       long 5
  byte 1, 2
  long 3
CON
  K = 58
  K2 = K + 1
PRI one(n)
  return n + 1
