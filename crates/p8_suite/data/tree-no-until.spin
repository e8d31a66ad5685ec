PUB main
  repeat 2
  until 1
