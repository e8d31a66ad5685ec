CON
  K = 144
DAT
here_0 long K and 1
lab1 long $FFFF_FFFF
        sub here_0, #par wc
        NEGNZ here_0, #K wz wz
        JMP #$ wc
        ABSNEG inb, #dira wz
        hubop lab1, #dira wc, wr
        WAITPEQ dira, #here_0 wz wr wr
        cmpsub $ + 1, outb wr, wr
        wrword 0, vcfg wc
        testn here_0, here_0 wc, wr, wc
        ret wz, wr, wc
        SUBABS outa, 0 wc, wz wr
        MINS here_0 + 1, #inb wz, wc
        lockret ina nr, wr
        cmps here_0 + 1, #dirb wz, wr, nr
PUB main
