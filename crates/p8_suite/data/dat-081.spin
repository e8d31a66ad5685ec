PUB main
VAR
  long a
CON
  K = 17
DAT
t long 9
        byte long 0[0], byte 0[K // 7]
        byte byte K[0], 0[2]
tab0 long byte 0[5]
        call #t
