PUB main
VAR
  long a
CON
  K = 90
DAT
t long 9
tab0 long 1
here_1 long $FFFF
        long tab0
        org 496
        res 16
q1 mov q1, #1
        mov tab0, #K
        long here_1
        mov here_1, #@here_1 & 511
tab2 byte -tab0
        mov tab0, #K
        long @tab0
        mov tab0, #@tab0 & 511
q3 byte here_1 + 1
        mov here_1, #K
q4 word tab0 * tab0
        mov tab0, #tab0 ^ 1
