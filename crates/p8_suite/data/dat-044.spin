CON
  K = 116
DAT
q0 byte 1
        byte 1
lab1
lab2 long @q0
tab3 byte 1, 1, 1
CON
  J1 = 1
DAT
        long @q0 + $
lab4 long $, $, $
tab5 jmp #$
q6 jmp #$
DAT
        word -1
lab7 word 256
lab8 long @tab5
here_9 word K + 1
PUB main
PRI two
