PUB main
VAR
  long a
CON
  K = 89
DAT
t long 9
        long $
lab0
        word >| K
        word K / (K - K)
        byte 1
        byte 1, 1
tab1 word
        byte 1, 1
lab2
