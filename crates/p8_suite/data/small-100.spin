' a file
PRI one(n)
  return n + 1
PUB main
  a := K
  one(a)
  kid.set(1)
CON
  K = 31
  K2 = K + 1
VAR
  long q1 q2
  long a
  word pad9[100]
  word far
OBJ
  kid : "kid"
DAT
t       long 5
  byte 1, 2
  long 3
