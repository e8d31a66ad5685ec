' a file
PRI one(n)
  return n + 1
VAR
  long a
  word pad9[100]
  word far
PUB main
  a := K
  one(a)
DAT
t       long 5
  byte "ab"[2]
  byte 1, 2
  long 3
CON
  K = 49
  K2 = K + 1
OBJ
