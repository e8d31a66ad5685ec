CON
  K = 167
DAT
lab0 long $FFFF_FFFF
tab1 MOVD vscl, #vscl
here_2 OR dira, #dirb
        cmpx inb, cnt
        ENC outa, phsb
        rol lab0 + 1, #lab0
        subs inb, tab1
        MOVS ctra, #outb
lab3 min lab0 + 1, dirb
        muxnc outb, tab1
lab4 lockset lab3
        jmp inb
        subabs tab1, #ctra
        ADDS lab4 + 1, #lab4
here_5 SUBSX vscl, #$ + 1
        nop
PUB main
