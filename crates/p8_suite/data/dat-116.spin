PUB main
VAR
  long a
CON
  K = 119
DAT
t long 9
q0 long K << 3
lab1 long 0
lab2 long $FFFF
q3 word @q0 << 4
        mov q0, #K
        word K + q0
        mov q0, #K
        long lab1 + 1
        mov lab1, #5 #> lab1
here_4 byte K + q3
        mov q3, #q3 ^ 1
        byte 2[$]
        word K + q0
        mov q0, #q0 ^ 1
here_5 byte K + lab1
        mov lab1, #5 #> lab1
