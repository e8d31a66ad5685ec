PUB main
  repeat main from 1 to