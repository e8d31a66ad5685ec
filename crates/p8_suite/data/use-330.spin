' a file
DAT
t       long 5
  byte 1, 2
  long 3
CON
  K = 33
  K2 = K + 1
OBJ
PRI one(n)
  return n + 1
VAR
  long a
  word pad9[100]
  word far
PUB main
  a := K
  main := 2
  one(a)
