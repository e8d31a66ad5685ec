
OBJ
  kid : "kid"
DAT
t       long 5
  byte 1, 2
  long 3
PRI one(n)
  return n + 1
PUB q1 : r x
CON
  K = 46
  K2 = K + 1
VAR
  long a
  word pad9[100]
  word far
PUB main
  a := K
  one(a)
  kid.set(1)
