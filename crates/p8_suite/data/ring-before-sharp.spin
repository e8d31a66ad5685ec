CON
  b = a
  a = b#c
PUB main
