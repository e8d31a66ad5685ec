' a file
OBJ
DAT
t       long 5
  byte 1, 2
  long 3
PRI one(n)
  return n + 1
VAR
  long a
  word pad9[100]
  word far
PUB main
  a := cnt[1]
  a := K
  one(a)
CON
  K = 50
  K2 = K + 1
