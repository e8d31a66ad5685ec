
DAT
t       long 5
  byte 1, 2
  long 3
VAR
  long a
  word pad9[100]
  word far
PUB main
  a := K
  one(a)
  kid.set(1)
CON
  K = 54
  K2 = K + 1
OBJ
  kid : "kid"
  o1 : kid
PRI one(n)
  return n + 1
