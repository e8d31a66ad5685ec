CON
  K = 89
DAT
q0 long 255
here_1 long 1 == 1
lab2 CMPX inb, #vcfg
        TJNZ inb, #lab2
        MUXC q0 + 1, #vcfg
here_3 addabs lab2, $ + 1
        test q0 + 1, lab2
        NEGNC outa, vscl
        CMP lab2, #q0
        sumz here_3, vscl
        movd q0, #q0 + 1
        waitvid here_1 + 1, q0 + 1
        SAR here_3, lab2
        subabs here_1, #lab2
        MAXS 511, #here_1
        testn here_1, #1
        nop
PUB main
PRI two
