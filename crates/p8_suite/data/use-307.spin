{{ doc }}

OBJ
CON
  K = 58
  K2 = K + 1
VAR
  long a
  word pad9[100]
  word far
PRI one(n)
  return n + 1
PUB main
  nosuch.get
  a := K
  one(a)
DAT
t       long 5
  byte 1, 2
  long 3
