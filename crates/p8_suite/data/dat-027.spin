CON
  K = 132
DAT
lab0 long K + 1
tab1 long 3 #> K
lab2 long K + 1
        jmp frqb
        mov 3, frqa
        mov 3, ctrb
        add vscl, #VSCL - 496
        mov 3, ctra
        jmp vcfg
        add phsa, #PHSA - 496
        mov 4, #ina
        mov outb, #1
        mov inb, #1
PUB main
PRI two
