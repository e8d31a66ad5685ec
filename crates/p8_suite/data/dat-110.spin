PUB main
VAR
  long a
CON
  K = 183
DAT
t long 9
lab0 word long -1[1 << 3], K[2]
tab1 long $1234[1 << 3], word (1 + 2)[1]
        rdlong t, 1000
tab2 byte $1234[5], long (1 + 2)[1]
        long 1/0
