
OBJ
PUB main
  a := K
  one(a)
VAR
  long a
  word pad9[100]
  word far
PRI one(n)
  return n + 1
DAT
t       long 5
  byte 1, 2
  long 3
:l nop
:l nop
CON
  K = 13
  K2 = K + 1