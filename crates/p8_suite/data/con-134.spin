CON
  xtal1
DAT
t long 5
VAR
  long a
PUB main
  a := 1
