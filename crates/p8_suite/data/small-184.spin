{{ doc }}

PRI one(n)
  return n + 1
VAR
  long a
  word pad9[100]
  word far
PUB main
  a := inb
  a := K
  one(a)
OBJ
DAT
t       long 5
  byte 1, 2
  long 3
CON
  K = 2
  K2 = K + 1
