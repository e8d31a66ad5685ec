PUB main
  repeat 2
  else
