PUB main
  a := K
  one(a)
PRI one(n)
  return n + 1
OBJ
CON
  K = 50
  K2 = K + 1
PUB q1
  if a
  else
  elseif a
DAT
t       long 5
  byte 1, 2
  long 3
VAR
  long a
  word pad9[100]
  word far
