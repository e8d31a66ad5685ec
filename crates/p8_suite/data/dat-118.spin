PUB main
VAR
  long a
CON
  K = 104
DAT
t long 9
        org 0
        djnz t, #$ - 1
        byte 3 #> K, |< 5, "x y", 255
tab0 byte 256, 65_536[0], 256, $FFFF
tab1 word |< 5, 255[3]
lab2 byte word -1, @tab1
tab3 word "ab"
        word 
        org 5
        byte 1
        fit 5
