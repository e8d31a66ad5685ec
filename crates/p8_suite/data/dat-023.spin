CON
  K = 74
DAT
lab0 long (K + 2) * 3
tab1 long $FFFF_FFFF
        if_nc_or_z rdbyte dirb, dira
        if_nz ones lab0, 1
        IF_NZ_OR_NC LOCKNEW lab0 + 1
        IF_C_AND_Z rdbyte 0, #tab1
        if_ae WAITPNE $ + 1, cnt
        if_nz_or_c muxnc 0, #lab0
        if_nc_and_z or tab1 + 1, #0
        IF_NZ_AND_C ones par, tab1 + 1
        if_nc shl ctra, lab0 + 1
        IF_Z_AND_NC cogid tab1
        IF_Z_NE_C maxs lab0, vcfg
        if_c cmpsub $ + 1, vcfg
        IF_ALWAYS LOCKRET cnt
        if_c_or_z DJNZ lab0, #par
        if_z nop
PUB main
PRI two
