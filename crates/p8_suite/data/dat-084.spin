PUB main
VAR
  long a
CON
  K = 186
DAT
t long 9
tab0 long $FFFF_FFFF
        long @tab0 << 4
        mov tab0, #@tab0 & 511
        long K + tab0
        mov tab0, #@tab0 & 511
tab1 byte tab0 + 1
        mov tab0, #5 #> tab0
        word @tab1 << 4
        mov tab1, #tab1 ^ 1
        byte @tab1
        mov tab1, #@tab1 & 511
        org $
q2 byte tab0 * tab0
        mov tab0, #5 #> tab0
q3 word tab1 * tab1
        mov tab1, #tab1 ^ 1
