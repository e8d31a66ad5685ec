CON
  b = a
  a = constant(b)
PUB main
