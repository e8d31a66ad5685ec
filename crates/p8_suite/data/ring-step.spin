CON
  b[a]
  a
PUB main
