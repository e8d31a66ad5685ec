{{ doc }}

DAT
t       long 5
  byte 1, 2
  long 3
CON
  K = 57
  K2 = K + 1
VAR
  long a
  word pad9[100]
  word far
PRI one(n)
  return n + 1
OBJ
PUB main
  one(a + a + a + a + a + a + a + a + a + a + a + a + a + a + a + a + a + a + a + a + a + a + a + a + a + a + a + a + a + a + a + a + a + a + a + a + a + a + a + a + a + a + a + a + a + a + a + a + a + a + a + a + a + a + a + a + a + a + a + a + a + a + a + a)
  a := K
  one(a)
