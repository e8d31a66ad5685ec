PUB main
VAR
  long a
CON
  K = 185
DAT
t long 9
lab0 word $[3], $
q1 long @lab0 + $
lab2 mov $ + 2, $
here_3 djnz $, #$ & 511
        fit 1/0
        if_z call #t wc
