PUB main
VAR
  long a
CON
  K = 167
DAT
t long 9
        long @main
q0 word long (1 + 2)[K // 7], word -1[K // 7]
tab1 long byte (1 + 2)[2], byte (1 + 2)[2], byte K[2]
        byte byte K[2]
q2 byte word -1[(2)], word 0[0], long (1 + 2)[K // 7]
here_3 byte $1234[1], (1 + 2)[K // 7]
