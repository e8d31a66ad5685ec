CON
  K = 99
DAT
        res 3
lab0 res 1
tab1 res 3
q2 res 1
here_3 word 1, 2
here_4 res 0
        long lab0, tab1, q2, here_3
PUB main
