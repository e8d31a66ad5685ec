
CON
  K = 51
  K2 = K + 1
VAR
  long a
  word pad9[100]
  word far
PUB main
  a := K
  one(a)
PRI one(n)
  return n + 1
DAT
:5 nop
t       long 5
  byte 1, 2
  long 3
OBJ
