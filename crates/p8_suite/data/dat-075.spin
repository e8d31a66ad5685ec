CON
  K = 46
DAT
        byte $, $, $, $, $
        long $, $, $
q0 word $[3], $
tab1 long @q0 + $
PUB main
PRI two
