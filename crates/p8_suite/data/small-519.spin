{{ doc }}

CON
  K = 20
  K2 = K + 1
OBJ
DAT
t       long 5
  byte 1, 2
  long 3
PUB main
  a := "ab"
  a := K
  one(a)
PRI one(n)
  return n + 1
VAR
  long a
  word pad9[100]
  word far
