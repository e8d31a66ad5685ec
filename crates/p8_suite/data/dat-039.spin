CON
  K = 48
DAT
lab0 long K <# 4
q1 long 2
q2 long 255
        waitcnt K, dira nr nr nr
        MAX outb, q2 nr
        MUXC lab0, q1 + 1 wz, wz nr
        ADDSX q2 + 1, #0 wz
        coginit 1 wz, wr, wz
        mov lab0 + 1, dira wc
        SAR lab0 + 1, #dira nr
        addabs q2, 0 wc wc, nr
        tjnz q2, lab0 + 1 wc wr wr
        shr phsb, q2 wz wz, wz
        DJNZ q1, #q2 wz nr
        WRLONG cnt, q2 wc wc wc
        NEGZ $ + 1, #lab0 nr
        lockret q1 wr, wz
PUB main
