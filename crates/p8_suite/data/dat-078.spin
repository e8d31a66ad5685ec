PUB main
VAR
  long a
CON
  K = 55
DAT
t long 9
here_0 byte 0
lab1 byte 0
        jmp #600
tab2 long @here_0 + $
