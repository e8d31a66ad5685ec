OBJ
PRI one(n)
  return n + 1
VAR
  long a
  word pad9[100]
  word far
CON
  K = 35
  K2 = K + 1
DAT
t       long 5
  byte 1, 2
  long 3
PUB main
  a := K
  one(a)
PUB q1
  case a
    1: if a
         a++
       else
         a--