x = 1
  y = 2, z
  #5, e[2]
VAR long c, d[2]
  word e
OBJ o : "f"
  p[3] : "g.spin"
DAT
  long 1
a if_b ret wc, nr
  word "xy", byte 2[3]
  org 5
b res 2
:c if_always mov b, #4
  fit
PRI a(b, c) : d | e, f[3]
PUB g
