OBJ
VAR
  long a
  word pad9[100]
  word far
CON
  K = 40
  K2 = K + 1
DAT
t       long 5
  byte 1, 2
  long 3
PUB main
  a := K
  - -a
  one(a)
PRI one(n)
  return n + 1
