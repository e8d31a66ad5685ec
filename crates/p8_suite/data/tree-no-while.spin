PUB main
  repeat
  while 0
  while 0
