PUB main
 if 1
 else
 repeat
 case 1
  2:
 repeat 3
 case 4
PUB x