{{ doc }}

PUB main
  a := K
  one(a)
PRI one(n)
  return n + 1
CON
  K = 23
  K2 = K + 1
OBJ
VAR
  long a
  word pad9[100]
  word far
DAT
t       long 5
  byte 1, 2
  file "x.bin"
  long 3