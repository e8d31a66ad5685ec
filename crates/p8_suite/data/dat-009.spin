CON
  K = 198
DAT
q0 long !5
q1 long 1
lab2 long >| K
        MINS 511, #inb wr
        ABS outa, $ + 1 nr wz wr
        jmpret 0, #q0 nr wc wz
        waitcnt cnt, q0 + 1 wz, nr
        hubop 511, #ina wz
        MULS inb, 511 wz
        sumc lab2, #q1 + 1 wr, wr wr
        DJNZ phsb, ctra wc
        xor 1, #dira wr
        cmps 0, #vscl wz
        enc phsb, #$ wc, wc
        MOVD vscl, 1 wr
        lockret par wr
        maxs $ + 1, #par nr wr
PUB main
PRI two
