CON
  b = a
  a = strsize(b)
PUB main
