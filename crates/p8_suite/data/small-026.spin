
PRI one(n)
  return n + 1
VAR
  long a
  word pad9[100]
  word far
OBJ
CON
  K = 15
  K2 = K + 1
DAT
  { open
t       long 5
  byte 1, 2
  long 3
PUB main
  a := K
  one(a)