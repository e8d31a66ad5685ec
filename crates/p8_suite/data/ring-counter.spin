CON
  #a
  b
  a = b[1]
PUB main
