CON
  K = 9
DAT
        byte $, $, $, $, $
tab0 mov $ + 2, $
tab1 word $[3], $
        jmp #$
        mov $ + 2, $
PUB main
PRI two
