
VAR
  long a
  word pad9[100]
  word far
PRI one(n)
  return n + 1
PUB main
  a := K
  a := @@-1
  one(a)
OBJ
CON
  K = 36
  K2 = K + 1
DAT
t       long 5
  byte 1, 2
  long 3
