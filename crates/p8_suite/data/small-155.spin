{{ doc }}

VAR
  long a
  word pad9[100]
  word far
DAT
t       long 5
  byte 1, 2
  long 3
PUB q1
  if a
    a++
  a--
  else
PUB main
  a := K
  one(a)
CON
  K = 41
  K2 = K + 1
OBJ
PRI one(n)
  return n + 1