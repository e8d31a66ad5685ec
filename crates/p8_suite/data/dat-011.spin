CON
  K = 103
DAT
here_0 long 0
tab1 long 0
        call #sub0
        if_c call #sub0 wc
        call #sub1
        if_c call #sub1 wc
sub0 add $, #1
sub0_ret if_z ret
sub1 shl 5, #1 wz
sub1_ret ret
PUB main
PRI two
