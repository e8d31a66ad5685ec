' a file
PUB q1
  case a
    1: a++
  else
VAR
  long a
  word pad9[100]
  word far
PRI one(n)
  return n + 1
PUB main
  a := K
  one(a)
  kid.set(1)
OBJ
  kid : "kid"
DAT
t       long 5
  byte 1, 2
  long 3
CON
  K = 2
  K2 = K + 1
