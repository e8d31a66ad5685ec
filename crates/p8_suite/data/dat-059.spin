CON
  K = 32
DAT
lab0 word 256
q1 word K
tab2
tab3 byte 1
        word $315F
CON
  J1 = 1
DAT
tab4 byte byte 255, tab3, K << 3[3]
        byte 0, 1 == 1, 256, word 65_536
here_5 byte 
        long K[K & 3], not K, long not K, K << 3
q6 byte K <# 4, -7 // 3[2 + 1], 255
        long long ||-9, ^^ 1000[2 + 1], 65_536, 116133245
q7 word "hello", q1
DAT
here_8 byte 1
        byte 1, 1
tab9 byte
q10 byte 1, 1
PUB main
PRI two
