{{ doc }}

PUB main
  a := K
  one(a)
  if a
    quit
VAR
  long a
  word pad9[100]
  word far
PRI one(n)
  return n + 1
DAT
t       long 5
  byte 1, 2
  long 3
OBJ
CON
  K = 42
  K2 = K + 1