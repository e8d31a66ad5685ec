CON
  K = 61
DAT
tab0 long $CB83
tab1 long 65_536
        call #sub0
        if_c call #sub0 wc
        call #sub1
        if_c call #sub1 wc
sub0 shl 5, #1 wz
sub0_ret jmpret 0, #0 nr
sub1 nop
        call #:in
:in nop
:in_ret ret
sub1_ret ret
PUB main
