CON
  K = 148
DAT
lab0 byte "hello", K <# 4[0], long 1159820745, $C0C5
        word $FFFF_FFFF, $D949, %1011, $FFFF_FFFF[2 + 1]
tab1 word 
        word not K, |< 5, "ab", lab0
lab2 word 
tab3 word ^^ 1000[3], K <# 4
        byte K << 3, 255, 0[1]
DAT
here_4 org 16 * 3
q5 mov $, #3
tab6 org 8
PUB main
