PUB main
VAR
  long a
CON
  K = 45
DAT
t long 9
        byte $, $, $, $, $
        mov $ + 2, $
lab0 mov $ + 2, $
q1 djnz $, #$ & 511
        res 600
        fit
