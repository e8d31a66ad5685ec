' a file
PRI one(n)
  return n + 1
CON
  K = 5
  K2 = K + 1
OBJ
VAR
  long a
  word pad9[100]
  word far
DAT
t       long 5
  byte 1, 2
  long 3
PUB main
  return a + a + a + a + a + a + a + a + a + a + a + a + a + a + a + a + a + a + a + a + a + a + a + a + a + a + a + a + a + a + a + a + a + a + a + a + a + a + a + a + a + a + a + a + a + a + a + a + a + a + a + a + a + a + a + a + a + a + a + a + a + a + a + a + a
  a := K
  one(a)
