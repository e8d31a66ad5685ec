{ two
  lines }
OBJ
PUB main
  a := K
  one(a)
  a := one(one(one(one(one(one(one(one(one(one(one(one(one(one(one(one(one(one(one(one(one(one(one(one(one(one(one(one(one(one(one(one(one(one(one(one(one(one(one(one(one(one(one(one(one(one(one(one(one(one(one(one(one(one(one(one(one(one(one(one(one(one(one(1)))))))))))))))))))))))))))))))))))))))))))))))))))))))))))))))
PRI one(n)
  return n + 1
VAR
  long a
  word pad9[100]
  word far
CON
  K = 24
  K2 = K + 1
DAT
t       long 5
  byte 1, 2
  long 3
