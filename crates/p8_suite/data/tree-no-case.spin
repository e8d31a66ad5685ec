PUB main
  repeat 2
  1: main
