PUB main
  a := K
  one(a)
  kid.set(1)
  a ?
CON
  K = 59
  K2 = K + 1
PRI one(n)
  return n + 1
OBJ
  kid : "kid"
DAT
t       long 5
  byte 1, 2
  long 3
VAR
  long a
  word pad9[100]
  word far
