PUB main
VAR
  long a
CON
  K = 168
DAT
t long 9
        byte a + 1, 2
lab0 byte 0, word "zz"
q1 long 0
