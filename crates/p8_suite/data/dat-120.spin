PUB main
VAR
  long a
CON
  K = 138
DAT
t long 9
        org K * 100 + 497
tab0 word $[3], $
q1 byte 0
q2 long $, $, $
        byte 0
here_3 long @tab0 + $
