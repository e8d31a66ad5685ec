CON
  q = nosuch(1)
DAT
t long 5
PUB main
  a := 1
VAR
  long a
