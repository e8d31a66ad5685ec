CON
  b = a
  a = long[b]
PUB main
