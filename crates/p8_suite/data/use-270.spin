' a file
PUB main
  a := K
  one(a)
CON
  K = 38
  Q1, q1
  K2 = K + 1
OBJ
DAT
t       long 5
  byte 1, 2
  long 3
VAR
  long a
  word pad9[100]
  word far
PRI one(n)
  return n + 1
