PUB main
VAR
  long a
CON
  K = 9
DAT
t long 9
        long "ab"
        long 256, K <# 4, -1
        long 
lab0 long 1 == 1, "A", "x y"
        org 0
        long 1, 2
        fit 1
        byte 
here_1 long 
