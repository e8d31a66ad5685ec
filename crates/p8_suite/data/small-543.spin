' a file
OBJ
VAR
  long a
  word pad9[100]
  word far
DAT
t       long 5
  byte 1, 2
  mov t, t wz wc
  long 3
PRI one(n)
  return n + 1
PUB main
  a := K
  one(a)
CON
  K = 48
  K2 = K + 1