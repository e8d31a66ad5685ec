PUB main
VAR
  long a
CON
  K = 80
DAT
t long 9
lab0 long 1 == 1
here_1 mov $, #1
lab2 byte 1, 1
        word >| K
q3
        org 100
        long 0[400]
        fit 499
