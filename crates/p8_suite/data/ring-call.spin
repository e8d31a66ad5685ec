CON
  b = a
  a = f(b)
PUB main
