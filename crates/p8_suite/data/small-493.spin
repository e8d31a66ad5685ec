{ two
  lines }
CON
  K = 56
  K2 = K + 1
PRI one(n)
  return n + 1
DAT
t       long 5
  byte 1, 2
  long 3
VAR
  long a
  word pad9[100]
  word far
PUB main
  a := K
  one(a)
  a := a.byte + result.word
OBJ
