CON
  K = 55
DAT
lab0 word -1[1], |< 5
        long lab0, |< 5[0]
        byte 7 / 2
        byte $711C, 1 == 1, K
PUB main
PRI two
