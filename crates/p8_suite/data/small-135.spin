' a file
VAR
  long a
  word pad9[100]
  word far
PUB main
  a := K
  one(a)
PRI one(n)
  return n + 1
DAT
t       long 5
  byte 1, 2
  call t
  long 3
OBJ
CON
  K = 1
  K2 = K + 1
