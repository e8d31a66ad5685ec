CON
  b = a
  a = b[1]
PUB main
