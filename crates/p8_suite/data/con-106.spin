CON
  q = main#x
PUB main
  a := 1
DAT
t long 5
VAR
  long a
