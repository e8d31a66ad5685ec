' a file
DAT
t       long 5
  byte 1, 2
  long 3
OBJ
PUB main
  a := K
  one(a)
  a := cnt[1]
CON
  K = 41
  K2 = K + 1
VAR
  long a
  word pad9[100]
  word far
PRI one(n)
  return n + 1
