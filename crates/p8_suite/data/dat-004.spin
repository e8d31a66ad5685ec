CON
  K = 6
DAT
        byte word 0[1], -1[0], long (1 + 2)[5]
lab0 byte (1 + 2)[(2)], word $1234[1]
lab1 long word K[(2)]
tab2 word $1234[0]
        long $1234[1 << 3], word (1 + 2)[2]
tab3 long byte K[5], byte 0[1 << 3]
PUB main
PRI two
