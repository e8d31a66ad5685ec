' a file
PRI one(n)
  return n + 1
DAT
t       long 5
  byte 1, 2
  long 3
CON
  K = 50
  K2 = K + 1
  q1 = a#LIMIT
OBJ
PUB main
  a := K
  one(a)
VAR
  long a
  word pad9[100]
  word far
