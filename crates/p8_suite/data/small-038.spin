{ two
  lines }
PRI one(n)
  return n + 1
CON
  K = 45
  K2 = K + 1
VAR
  long a
  word pad9[100]
  word far
DAT
t       long 5
  byte 1, 2
  long 3
PUB main
  abcdefghijklmnopqrstuvwxyz_12345 := 1
  a := K
  one(a)
OBJ
