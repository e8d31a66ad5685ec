CON
  K = 69
DAT
lab0 long $FFFF
here_1 long 0
        IF_NZ_AND_C ret
        IF_C_NE_Z sumz vscl, #outb
        IF_Z_EQ_C CMPS outb, lab0
        if_c_or_z CMP lab0 + 1, #lab0
        IF_NE rev ctra, phsb
        IF_NZ_AND_NC maxs dirb, vcfg
        if_nc_or_nz MUXZ vcfg, #lab0
        if_e sub here_1, #$ + 1
        if_nc_and_nz SUBABS here_1, K
        IF_B and 511, vscl
        if_z_ne_c MUXNZ here_1, K
        if_z_or_nc sumc outa, vscl
        IF_Z SUB here_1 + 1, here_1
        IF_NZ_OR_NC min 0, #vcfg
        if_z nop
PUB main
PRI two
