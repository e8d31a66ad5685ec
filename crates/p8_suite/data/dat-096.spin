PUB main
VAR
  long a
CON
  K = 145
DAT
t long 9
        byte 0, "a"
lab0 long "a", 0, "a", 0
        org $1F1
        byte word "zz"
