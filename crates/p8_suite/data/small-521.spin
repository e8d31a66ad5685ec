{{ doc }}

VAR
  long a
  word pad9[100]
  word far
OBJ
CON
  K = 46
  K2 = K + 1
DAT
t       long 5
  byte 1, 2
  long 3
PRI one(n)
  return n + 1
PUB main
  a := K
  a := lookup("b": "a".."z")
  one(a)
