PUB main
VAR
  long a
CON
  K = 71
DAT
t long 9
q0 long ^^ 1000
tab1 byte @q0
        mov q0, #K
        word -tab1
        mov tab1, #5 #> tab1
tab2 long tab1 + 1
        byte 1[3/0]
        mov tab1, #tab1 ^ 1
lab3 long q0 * q0
        mov q0, #q0 ^ 1
        org $1F1
