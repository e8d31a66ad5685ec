{ two
  lines }
CON
  K = 33
  K2 = K + 1
VAR
  long a
  word pad9[100]
  word far
OBJ
PRI one(n)
  return n + 1
DAT
t       long 5
  byte 1, 2
  long 3
PUB main
  a := K
  one(a)
  K[1] := 2
