CON
  b = a
  a = @@b
PUB main
