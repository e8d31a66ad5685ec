CON
  K = 180
DAT
lab0 long |< 5
        IF_NEVER MOV $ + 1, par
        if_c_ne_z ror 0, lab0
        if_z_eq_c CMPX ctra, #vscl
        IF_NC_AND_NZ JMPRET inb, lab0
        IF_NC_OR_Z AND cnt, #par
        IF_Z_OR_NC locknew $ + 1
        if_c cogstop ctra
        if_z_and_c subs par, #ctra
        if_be rev ina, #outb
        IF_C_AND_Z add $ + 1, #$ + 1
        if_a rcr inb, lab0
        if_nc sumnc outb, phsb
        IF_NZ_AND_C NEGNC lab0, dira
        IF_C_EQ_Z test ctra, vcfg
        if_z nop
PUB main
