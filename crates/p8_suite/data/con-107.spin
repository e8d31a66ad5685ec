CON
  q = a
VAR
  long a
DAT
t long 5
PUB main
  a := 1
