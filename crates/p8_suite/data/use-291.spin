
PRI one(n)
  return n + 1
OBJ
PUB main
  a := K
  one(a)
VAR
  long a
  word pad9[100]
  word far
CON
  K = 29
  q1 = nosuch
  K2 = K + 1
DAT
t       long 5
  byte 1, 2
  long 3
