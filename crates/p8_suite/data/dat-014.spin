CON
  K = 86
DAT
here_0 org 0
q1 byte 1, 2, 3
        org 8
DAT
here_2 long $FFFF_FFFF, >| K[1]
        long 3 #> K, @here_0, 256, K
        word 7 / 2, 1
q3 byte 
        long 0, q1, 3516024960, |< 5
PUB main
