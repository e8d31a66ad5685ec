CON
  K = 1
DAT
here_0 long |< 5
here_1 long 7 / 2
lab2 ones here_0 + 1, #par
        LOCKNEW vcfg
        mins 0, #here_1
here_3 rdlong $ + 1, #511
        SHL 511, vcfg
        MAXS outb, $
lab4 enc inb, #here_3
        CMPX lab4, 1
        ABS here_1 + 1, #inb
        MUXNC vcfg, #0
        xor here_3, 0
lab5 NEG lab2, #here_0 + 1
        movi here_0, here_0
        cogid here_1
        nop
PUB main
