CON
  b = a
  a = lookup(1: b)
PUB main
