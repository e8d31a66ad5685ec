PUB main
VAR
  long a
CON
  K = 51
DAT
t long 9
        long 256, "ab", K <# 4
        call #q1
q1 nop
        byte 
        byte 
