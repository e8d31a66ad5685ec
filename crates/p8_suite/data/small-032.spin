{ two
  lines }
PRI one(n)
  return n + 1
PUB main
  a := K
  one(a)
  a := "open
DAT
t       long 5
  byte 1, 2
  long 3
CON
  K = 40
  K2 = K + 1
OBJ
VAR
  long a
  word pad9[100]
  word far
