CON
  K = 16
DAT
here_0 long K
tab1 long K + 1
        if_never TESTN inb, tab1 + 1
        IF_Z_AND_C mins here_0, here_0
        IF_Z_OR_C CMPSX cnt, #vscl
        IF_NC_OR_Z CMP here_0 + 1, 511
        IF_C_NE_Z cmpx K, inb
        if_ae sumz phsb, #inb
        IF_NC rev K, tab1
        IF_NC_AND_NZ SUMZ vcfg, here_0 + 1
        if_c_or_z MUXNC here_0, #1
        IF_A cmpx cnt, here_0 + 1
        IF_C_AND_NZ locknew $
        IF_NZ_OR_C NEGC $, tab1
        if_nc_or_nz waitvid ctra, #vcfg
        if_z_or_nc ror here_0, #dira
        if_z nop
PUB main
PRI two
