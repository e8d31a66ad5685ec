' a file
DAT
t       long 5
  byte 1, 2
  long 3
VAR
  long a
  word pad9[100]
  word far
PUB main
  a := K
  one(a)
PUB q1()
CON
  K = 51
  K2 = K + 1
OBJ
PRI one(n)
  return n + 1
