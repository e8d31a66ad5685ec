PUB main
VAR
  long a
CON
  K = 58
DAT
t long 9
lab0 byte 1
q1
lab2 word |< 5
        mov t, #1 / ($ - $)
        long
        byte 1, 1, 1
        ret
        word 2625434801
lab3 byte 1, 1, 1
