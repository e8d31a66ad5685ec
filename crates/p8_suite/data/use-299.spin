
CON
  K = 26
  K2 = K + 1
VAR
  long q1[nosuch]
  long a
  word pad9[100]
  word far
PUB main
  a := K
  one(a)
DAT
t       long 5
  byte 1, 2
  long 3
PRI one(n)
  return n + 1
OBJ