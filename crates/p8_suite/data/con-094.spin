CON
  a = 1
VAR
  long a
PUB main
  a := 1
DAT
t long 5
